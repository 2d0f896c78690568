"""The remap file and the change file.

Enters: their bytes, and for a change the start. Leaves: the services by their captured names; the changed start; or `BadRecord`.
"""
from outside.files import read_name
from outside.schema import NEXT_LIMIT, SERVICE_LIMIT, TEXT_COLUMN_LIMIT, Table, position, rows_keep_rules
from outside.values import Malformed, is_text, read_integer, read_number

BYTE_ORDER_MARK = b"\xef\xbb\xbf"


class BadRecord(Exception):
    """The number of the record that decides, from 1."""

    def __init__(self, number):
        super().__init__(number)
        self.number = number


class Records:
    """Reads records of CSV byte by byte: commas, quotes, three ends of lines, and blank lines that are none."""

    def __init__(self):
        self.records, self.record, self.field, self.state = [], [], bytearray(), "record"

    def end_field(self):
        self.record.append(bytes(self.field))
        self.field = bytearray()

    def end_record(self):
        self.end_field()
        self.records.append(self.record)
        self.record, self.state = [], "record"

    def take(self, byte):
        if self.state == "quoted":
            if byte == ord('"'):
                self.state = "quote"
            else:
                self.field.append(byte)
        elif self.state == "record" and byte in b"\r\n":
            return
        elif self.state in ("record", "field") and byte == ord('"'):
            self.state = "quoted"
        elif self.state == "quote" and byte == ord('"'):
            self.field.append(byte)
            self.state = "quoted"
        elif byte == ord(","):
            self.end_field()
            self.state = "field"
        elif byte in b"\r\n":
            self.end_record()
        else:
            self.field.append(byte)
            self.state = "within"


def records_of(data):
    reader = Records()
    for byte in data.removeprefix(BYTE_ORDER_MARK):
        reader.take(byte)
    if reader.state != "record":
        reader.end_record()
    return reader.records


def read_remap(data):
    services = {}
    for number, record in enumerate(records_of(data), 1):
        if len(record) != 3 or record[0] != b"service" or not all(map(is_text, record)) or record[1] in services:
            raise BadRecord(number)
        services[record[1]] = record[2]
    return services


def change_column(start, record, change):
    """Puts what `change` makes of the named column in its place."""
    if len(record) < 3:
        raise Malformed
    number = start.table_number(record[1])
    if number is None:
        raise Malformed
    table = start.tables[number]
    place = position(table.columns, record[2])
    if place is None:
        raise Malformed
    columns = list(table.columns)
    columns[place] = change(columns[place], place, record[3:])
    start.tables[number] = Table(table.name, tuple(columns))


def require(holds):
    if not holds:
        raise Malformed


def with_range(column, _, fields):
    require(column.kind[0] == "integer" and len(fields) == 2)
    least, greatest = map(read_integer, fields)
    require(least <= greatest)
    return column._replace(kind=("integer", least, greatest))


def with_length(column, _, fields):
    require(column.kind[0] == "text" and len(fields) == 1)
    return column._replace(kind=("text", read_number(fields[0], 1, TEXT_COLUMN_LIMIT)))


def with_nulls(column, place, fields):
    require(len(fields) == 1 and fields[0] in (b"null", b"notnull") and (place > 0 or fields[0] == b"notnull"))
    return column._replace(not_null=fields[0] == b"notnull")


def change_level(start, record):
    require(len(record) == 2)
    start.level = read_number(record[1], 1, 2)


def change_next(start, record):
    require(len(record) == 3)
    sequence = start.sequence_number(record[1])
    require(sequence is not None)
    start.sequences[sequence] = (record[1], read_number(record[2], start.sequences[sequence][1], NEXT_LIMIT))


def change_service(start, record):
    require(len(record) == 3)
    name, rights = read_name(record[1]), record[2]
    place = position(start.services, name)
    if rights == b"none":
        require(place is not None)
        del start.services[place]
        return
    require(rights in (b"rw", b"ro"))
    if place is not None:
        start.services[place] = (name, rights.decode())
        return
    require(len(start.services) < SERVICE_LIMIT)
    start.services.append((name, rights.decode()))


CHANGES = {
    b"level": change_level, b"next": change_next, b"service": change_service,
    b"range": lambda start, record: change_column(start, record, with_range),
    b"length": lambda start, record: change_column(start, record, with_length),
    b"null": lambda start, record: change_column(start, record, with_nulls),
}


def changed_start(start, data):
    """The start that a change file makes of one."""
    start = start.copy()
    for number, record in enumerate(records_of(data), 1):
        try:
            require(record[0] in CHANGES)
            CHANGES[record[0]](start, record)
            require(rows_keep_rules(start))
        except Malformed:
            raise BadRecord(number) from None
    return start
