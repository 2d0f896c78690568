"""The made conversations: for each its name, its chunking and the bytes that the client sends. They are the same each time."""
import json

END = b"\r\n"
CONNECT, DISCONNECT = {"connect": "main"}, {"disconnect": True}
INSERT_ITEM = "INSERT INTO item VALUES (s.NEXTVAL, 5)"
SELECT_BAL = "SELECT bal FROM acct WHERE id = 1"
LONGEST_HEAD, LONGEST_BODY, LONGEST_TEXT = 8192, 65536, 1000
MOST_HEADERS = 64
RANDOM_CONVERSATIONS = 60


# Requests.


def request(line, *headers, body=b"", end=END):
    return end.join([line.encode(), *(header.encode() for header in headers), b"", b""]) + body


def bytes_of(value):
    """A body: bytes as they are, a text as UTF-8, and other things as JSON."""
    if isinstance(value, bytes):
        return value
    if isinstance(value, str):
        return value.encode()
    return json.dumps(value, separators=(",", ":"), ensure_ascii=False).encode()


def post(value, *headers, line="POST /call HTTP/1.1", end=END):
    body = bytes_of(value)
    return request(line, *headers, f"Content-Length: {len(body)}", body=body, end=end)


def get(*headers, line="GET /session HTTP/1.1", end=END):
    return request(line, *headers, end=end)


def sql(text, *binds):
    return post({"binds": list(binds), "sql": text})


def draw(value, sequence=0):
    return {"draw": value, "seq": sequence}


def row(number):
    return {"row": number}


def posts(*calls):
    """A connect and these calls or statements, one after the other."""
    return b"".join(post(call if not isinstance(call, str) else {"sql": call}) for call in (CONNECT, *calls))


def padded(line, size, *headers):
    """A request's head of just so many bytes."""
    head = request(line, *headers, "X-Long: ")
    return head.replace(b"X-Long: ", b"X-Long: " + b"a" * (size - len(head)))


SESSION = get()
HELLO = post(CONNECT)


# Ordinary use.


def ordinary():
    """Calls on the start, without an error of HTTP or JSON."""
    yield "nothing", b""
    yield "connect", HELLO
    yield "connect_by_no_service", post({"connect": "prod"}) + SESSION
    yield "connect_twice", HELLO + HELLO + SESSION
    yield "connect_by_an_empty_name", post({"connect": ""})
    yield "connect_by_another_case", post({"connect": "Main"})
    yield "connect_again_after_a_disconnect", posts(DISCONNECT, CONNECT, SELECT_BAL) + SESSION
    yield "disconnect_only", post(DISCONNECT) + SESSION
    yield "disconnect_at_the_end", posts(DISCONNECT)
    yield "disconnect_twice", posts(DISCONNECT, DISCONNECT)
    yield "session_only", SESSION
    yield "session_between_calls", SESSION + HELLO + SESSION + sql(SELECT_BAL) + SESSION + SESSION + post(DISCONNECT) + SESSION
    yield "statement_without_connect", sql("COMMIT") + sql(INSERT_ITEM) + sql("no statement") + SESSION
    yield "row_of_all_columns", posts("SELECT * FROM acct WHERE id = 2", "SELECT * FROM item")
    yield "empty_table_has_no_rows", posts("SELECT qty FROM item", "SELECT COUNT(*), SUM(qty), MIN(qty) FROM item")
    yield "selects", posts(
        SELECT_BAL, "SELECT id, bal + 1, -bal FROM acct WHERE bal >= 50 ORDER BY bal DESC",
        "SELECT bal FROM acct WHERE id = 9",
    )
    yield "totals", posts(
        "SELECT SUM(bal), MIN(bal), MAX(id), COUNT(*) FROM acct", "SELECT SUM(id * 2) FROM acct WHERE NOT id = 1",
    )
    yield "insert_and_commit", posts("INSERT INTO acct VALUES (3, 7)", "COMMIT", "SELECT * FROM acct ORDER BY id")
    yield "insert_and_leave", posts("INSERT INTO acct VALUES (3, 7)")
    yield "insert_and_disconnect", posts("INSERT INTO acct VALUES (3, 7)", DISCONNECT, CONNECT, "SELECT COUNT(*) FROM acct")
    yield "insert_and_roll_back", posts(
        "INSERT INTO acct VALUES (3, 7)", "ROLLBACK", "INSERT INTO acct VALUES (3, 8)", "COMMIT",
    )
    yield "insert_of_some_columns", posts("INSERT INTO acct (id) VALUES (3)", "SELECT * FROM acct WHERE bal IS NULL", "COMMIT")
    yield "insert_of_a_key_that_is_there", posts("INSERT INTO acct VALUES (1, 7)", "COMMIT")
    yield "insert_of_a_null_key", posts("INSERT INTO acct VALUES (NULL, 7)", "INSERT INTO acct (bal) VALUES (7)")
    yield "insert_out_of_range", posts("INSERT INTO acct VALUES (1000001, 1)", "INSERT INTO acct VALUES (3, -1000001)")
    yield "insert_of_too_few_values", posts("INSERT INTO acct VALUES (3)", "INSERT INTO acct VALUES (3, 4, 5)")
    yield "insert_draws", posts(INSERT_ITEM, INSERT_ITEM, "COMMIT", "SELECT no, qty FROM item")
    yield "refused_insert_draws", posts(
        "INSERT INTO item VALUES (s.NEXTVAL, 1001)", "INSERT INTO item VALUES (s.NEXTVAL, 1 / 0)", INSERT_ITEM,
    )
    yield "draw", posts("SELECT s.NEXTVAL FROM dual", "SELECT S . nextval FROM DUAL;", "SELECT t.NEXTVAL FROM dual")
    yield "update_and_commit", posts("UPDATE acct SET bal = bal - 5 WHERE id = 1", "COMMIT", SELECT_BAL)
    yield "update_of_nothing", posts("UPDATE acct SET bal = bal / 0 WHERE id = 9", "COMMIT")
    yield "update_by_zero", posts("UPDATE acct SET bal = bal / 0 WHERE id = 1", SELECT_BAL)
    yield "update_over_the_greatest", posts("UPDATE acct SET bal = bal * 9223372036854775807", "UPDATE acct SET bal = 1000001")
    yield "update_swaps_keys", posts("UPDATE acct SET id = 3 - id", "COMMIT", "SELECT * FROM acct")
    yield "update_makes_keys_equal", posts("UPDATE acct SET id = 7", "UPDATE acct SET id = 2 WHERE id = 1", "COMMIT")
    yield "update_of_a_column_twice", posts("UPDATE acct SET bal = 1, bal = 2")
    yield "delete_and_commit", posts("DELETE FROM acct WHERE id = 2", "COMMIT", "SELECT * FROM acct")
    yield "delete_of_a_new_row", posts("INSERT INTO acct VALUES (3, 7)", "DELETE FROM acct WHERE id = 3", "COMMIT")
    yield "delete_of_all", posts("DELETE FROM acct", "SELECT COUNT(*) FROM acct", "ROLLBACK", "SELECT COUNT(*) FROM acct")
    yield "empty_commits", posts("COMMIT", "ROLLBACK", "COMMIT;")
    yield "read_only_transaction", posts(
        "SET TRANSACTION READ ONLY", SELECT_BAL, "DELETE FROM acct", "SELECT s.NEXTVAL FROM dual", "COMMIT",
        "DELETE FROM acct WHERE id = 1", "COMMIT",
    )
    yield "read_only_twice", posts(
        "SET TRANSACTION READ ONLY", "SET TRANSACTION READ ONLY", "ROLLBACK", "SET TRANSACTION READ ONLY",
    )
    yield "read_only_after_a_change", posts("UPDATE acct SET bal = 1", "SET TRANSACTION READ ONLY", "ROLLBACK")
    yield "read_only_after_for_update", posts(
        "SELECT id FROM acct WHERE id = 1 FOR UPDATE", "SET TRANSACTION READ ONLY", "COMMIT",
    )
    yield "for_update_of_nothing", posts("SELECT id FROM acct WHERE id = 9 FOR UPDATE", "SET TRANSACTION READ ONLY")
    yield "read_only_service", (
        post({"connect": "report"}) + sql(SELECT_BAL) + sql("DELETE FROM acct") + sql("SELECT id FROM acct FOR UPDATE")
        + sql("SELECT s.NEXTVAL FROM dual") + sql("COMMIT")
    )
    yield "other_service", post({"connect": "test"}) + sql("DELETE FROM acct WHERE id = 2") + sql("COMMIT")
    yield "unknown_names", posts(
        "SELECT * FROM none", "SELECT none FROM acct", "INSERT INTO acct (id, id) VALUES (1, 2)",
        "INSERT INTO item VALUES (t.NEXTVAL, 1)",
    )
    yield "kinds_disagree", posts(
        "SELECT id FROM acct WHERE id = 'a'", "SELECT id = 1 FROM acct", "SELECT id FROM acct WHERE bal",
        "INSERT INTO item VALUES (1, 1)",
    )
    yield "no_statements", posts(
        "", "SELECT", "SELECT * FROM acct;;", "SELECT 1x FROM acct", "SELECT 9223372036854775808 FROM acct", "SAVEPOINT a",
        "SELECT 'a FROM acct",
    )
    yield "spaces_and_cases", posts("\tselect\r\n Bal\nfrom  ACCT where(id)=1 ;\n", "SeLeCt BAL,bAl FROM acct WHERE id!=1")
    yield "texts_in_rows", posts(
        "SELECT 'it''s', '' FROM acct WHERE id = 1", "SELECT 'a\"b\\c/d' FROM acct WHERE id = 1",
        "SELECT '\u00fcber \u20ac \U0001f600' FROM acct WHERE id = 1",
    )
    yield "texts_with_controls", posts("SELECT '\b\f\n\r\t\x00\x1f\x7f' FROM acct WHERE id = 1")
    yield "greatest_numbers", posts(
        "SELECT 9223372036854775807, -9223372036854775807 - 1 FROM acct WHERE id = 1",
        "SELECT 9223372036854775807 + 1 FROM acct", "SELECT -7 / 2, 7 / -2 FROM acct WHERE id = 2",
    )
    yield "nesting", posts(f"SELECT {'(' * 32}1{')' * 32} FROM acct WHERE id = 1", f"SELECT {'(' * 33}1{')' * 33} FROM acct")


def binds():
    """Calls with binds, among them ids."""
    yield "binds_of_each_kind", HELLO + sql("SELECT :1, :2, :3, :4 FROM acct WHERE id = 1", None, -7, "a b", row(2))
    yield "bind_by_key", (
        HELLO + sql("SELECT bal FROM acct WHERE id = :1", 2) + sql("UPDATE acct SET bal = :2 WHERE id = :1", 2, 51)
        + sql("COMMIT")
    )
    yield "bind_is_missing", (
        HELLO + sql("SELECT :1 FROM acct") + sql("SELECT :2 FROM acct", 1) + sql("SELECT :16 FROM acct", *[1] * 15)
    )
    yield "binds_that_nothing_names", HELLO + sql("COMMIT", 1, "x", None)
    yield "sixteen_binds", HELLO + sql("SELECT :16, :1 FROM acct WHERE id = 1", *range(16))
    yield "bind_of_a_start_row", (
        HELLO + sql("SELECT id FROM acct WHERE ROWID = :1", row(1))
        + sql("SELECT ROWID FROM acct WHERE ROWID <> :1", row(1))
    )
    yield "bind_of_a_drawn_value", (
        HELLO + sql(INSERT_ITEM) + sql("SELECT qty FROM item WHERE no = :1", draw(10))
        + sql("UPDATE item SET qty = 6 WHERE no = :1", draw(10)) + sql("COMMIT")
    )
    yield "bind_of_a_made_row", (
        HELLO + sql(INSERT_ITEM) + sql("SELECT no, qty FROM item WHERE ROWID = :1", row(3))
        + sql("DELETE FROM item WHERE ROWID = :1", row(3))
    )
    yield "bind_of_a_rolled_back_row", (
        HELLO + sql(INSERT_ITEM) + sql("ROLLBACK")
        + sql("SELECT qty FROM item WHERE ROWID = :1 OR no = :2", row(3), draw(10))
    )
    yield "bind_of_a_refused_draw", (
        HELLO + sql("INSERT INTO item VALUES (s.NEXTVAL, 1001)") + sql("INSERT INTO item VALUES (:1, 4)", draw(10))
        + sql("SELECT :1 FROM item", row(3)) + sql("SELECT :1 FROM item", row(4))
    )
    yield "bind_of_a_gone_row", (
        HELLO + sql("DELETE FROM acct WHERE id = 1") + sql("COMMIT") + sql("SELECT :1 FROM acct", row(1))
    )
    yield "bind_of_a_drawn_value_twice", (
        HELLO + sql("SELECT s.NEXTVAL FROM dual") + sql("INSERT INTO item VALUES (:1, 1)", draw(10))
        + sql("INSERT INTO item VALUES (:1, 2)", draw(10)) + sql("COMMIT")
    )
    yield "row_that_was_never_given", HELLO + sql("SELECT :1 FROM acct", row(99)) + SESSION + sql(SELECT_BAL)
    yield "row_zero_was_never_given", HELLO + sql("SELECT :1 FROM acct", row(0))
    yield "next_row_was_never_given", (
        HELLO + sql("SELECT :1 FROM acct", row(3)) + sql("INSERT INTO acct VALUES (3, 3)")
        + sql("SELECT :1 FROM acct WHERE id = 3", row(3))
    )
    yield "greatest_row_was_never_given", HELLO + sql("SELECT :1 FROM acct", row(2**64 - 1))
    yield "draw_that_was_never_given", (
        HELLO + sql("SELECT :1 FROM acct", draw(9)) + sql("SELECT :1 FROM acct", draw(10)) + SESSION
    )
    yield "draw_of_another_sequence", (
        HELLO + sql("SELECT s.NEXTVAL FROM dual") + sql("SELECT :1 FROM acct", draw(10, 1))
        + sql("SELECT :1 FROM acct", draw(10, 2**32 - 1))
    )
    yield "insert_that_binds_what_it_draws", HELLO + sql("INSERT INTO item VALUES (s.NEXTVAL, :1)", draw(10)) + sql(INSERT_ITEM)
    yield "strange_bind_without_connect", sql("SELECT :1 FROM acct", row(99)) + SESSION + HELLO
    yield "strange_bind_of_no_statement", HELLO + sql("what", row(99)) + SESSION
    yield "strange_bind_that_nothing_names", HELLO + sql("COMMIT", 1, row(7), 2) + SESSION
    yield "strange_bind_that_closes", HELLO + post({"sql": "COMMIT", "binds": [row(7)]}, "Connection: close") + SESSION
    yield "kinds_of_binds", (
        HELLO + sql("SELECT id FROM acct WHERE id = :1", row(1)) + sql("SELECT id FROM acct WHERE ROWID < :1", row(1))
        + sql("SELECT -:1 FROM acct", "a")
    )


# JSON.

TAKEN = {
    "spaces": b' {\t"connect"\r\n:\n "main" } \r\n',
    "binds_left_out": '{"sql":"COMMIT"}',
    "binds_last": '{"sql":"COMMIT","binds":[1]}',
    "spaces_in_binds": '{"sql" : "COMMIT" , "binds" : [ 1 , null , "" ] }',
    "key_with_an_escape": r'{"\u0073ql":"COMMIT"}',
    "text_with_escapes": r'{"sql":"\u0053ELECT \u0027\"\\\/\b\f\n\r\t\u0000\u00e9\ud83d\ude00\u0027 FROM acct WHERE id = 1"}',
    "raw_characters": '{"sql":"SELECT \'\u00e9\u20ac\U0001f600\x7f\' FROM acct WHERE id = 1"}',
    "escape_of_upper_case": r'{"connect":"\u006D\u0061in"}',
    "key_twice": '{"connect":"none","connect":"main"}',
    "statement_twice": '{"sql":"x","sql":"COMMIT","binds":[7],"binds":[]}',
    "keys_of_an_id_in_another_order": '{"sql":"SELECT :1 FROM acct","binds":[{"seq":0,"draw":10}]}',
    "greatest_number": '{"sql":"SELECT :1 FROM acct WHERE id = 1","binds":[9223372036854775807]}',
    "least_number": '{"sql":"SELECT :1 FROM acct WHERE id = 1","binds":[-9223372036854775808]}',
    "zero": '{"sql":"SELECT :1 FROM acct WHERE id = 1","binds":[0]}',
    "longest_service": {"connect": "m" * LONGEST_TEXT},
    "longest_statement": {"sql": "COMMIT" + " " * (LONGEST_TEXT - 6)},
    "longest_bind": {"sql": "COMMIT", "binds": ["\u20ac" * 333 + "x"]},
    "null_bind": '{"sql":"SELECT :1 FROM acct WHERE id = 1","binds":[null]}',
    "bind_that_looks_like_an_id": '{"sql":"SELECT :1 FROM acct WHERE id = 1","binds":["{\\"row\\":3}"]}',
}

NO_CALLS = {
    "empty": b"",
    "space": b" ",
    "cut": b'{"connect":"main"',
    "more_behind": b'{"connect":"main"}x',
    "two_texts": b'{"connect":"main"}{"connect":"main"}',
    "byte_order_mark": b'\xef\xbb\xbf{"connect":"main"}',
    "null": b"null",
    "number": b"1",
    "text": b'"connect"',
    "array": b'[{"connect":"main"}]',
    "no_key": b"{}",
    "other_key": b'{"open":"main"}',
    "key_of_other_case": b'{"Connect":"main"}',
    "one_key_more": b'{"connect":"main","x":1}',
    "two_calls": b'{"connect":"main","disconnect":true}',
    "binds_alone": b'{"binds":[]}',
    "binds_of_a_connect": b'{"binds":[],"connect":"main"}',
    "service_is_a_number": b'{"connect":1}',
    "service_is_null": b'{"connect":null}',
    "disconnect_is_false": b'{"disconnect":false}',
    "disconnect_is_null": b'{"disconnect":null}',
    "disconnect_is_one": b'{"disconnect":1}',
    "disconnect_is_a_text": b'{"disconnect":"true"}',
    "statement_is_null": b'{"sql":null}',
    "statement_is_an_array": b'{"sql":["COMMIT"]}',
    "binds_are_null": b'{"sql":"COMMIT","binds":null}',
    "binds_are_an_object": b'{"sql":"COMMIT","binds":{}}',
    "bind_is_true": b'{"sql":"COMMIT","binds":[true]}',
    "bind_is_an_array": b'{"sql":"COMMIT","binds":[[1]]}',
    "bind_is_an_empty_object": b'{"sql":"COMMIT","binds":[{}]}',
    "bind_has_a_point": b'{"sql":"COMMIT","binds":[1.0]}',
    "bind_has_an_exponent": b'{"sql":"COMMIT","binds":[1e2]}',
    "bind_is_minus_zero": b'{"sql":"COMMIT","binds":[-0]}',
    "bind_is_too_great": b'{"sql":"COMMIT","binds":[9223372036854775808]}',
    "bind_is_too_small": b'{"sql":"COMMIT","binds":[-9223372036854775809]}',
    "bind_has_a_plus": b'{"sql":"COMMIT","binds":[+1]}',
    "bind_has_a_leading_zero": b'{"sql":"COMMIT","binds":[01]}',
    "bind_is_no_number": b'{"sql":"COMMIT","binds":[NaN]}',
    "bind_is_infinite": b'{"sql":"COMMIT","binds":[Infinity]}',
    "seventeen_binds": {"sql": "COMMIT", "binds": [1] * 17},
    "row_is_negative": b'{"sql":"COMMIT","binds":[{"row":-1}]}',
    "row_is_a_text": b'{"sql":"COMMIT","binds":[{"row":"1"}]}',
    "row_has_a_point": b'{"sql":"COMMIT","binds":[{"row":1.0}]}',
    "row_is_too_great": b'{"sql":"COMMIT","binds":[{"row":18446744073709551616}]}',
    "row_with_a_key_more": b'{"sql":"COMMIT","binds":[{"row":1,"seq":0}]}',
    "draw_without_sequence": b'{"sql":"COMMIT","binds":[{"draw":10}]}',
    "sequence_is_too_great": b'{"sql":"COMMIT","binds":[{"draw":10,"seq":4294967296}]}',
    "service_is_too_long": {"connect": "m" * (LONGEST_TEXT + 1)},
    "statement_is_too_long": {"sql": "COMMIT" + " " * (LONGEST_TEXT - 5)},
    "bind_is_too_long": {"sql": "COMMIT", "binds": ["\u20ac" * 333 + "xy"]},
    "not_utf_8": b'{"connect":"\xff"}',
    "overlong_utf_8": b'{"connect":"\xc0\xaf"}',
    "surrogate_in_utf_8": b'{"connect":"\xed\xa0\x80"}',
    "half_a_pair": b'{"connect":"\\ud83d"}',
    "second_half_first": b'{"connect":"\\ude00\\ud83d"}',
    "control_in_a_text": b'{"connect":"ma\nin"}',
    "unknown_escape": b'{"connect":"\\main"}',
    "short_escape": b'{"connect":"\\u6d"}',
    "single_quotes": b"{'connect':'main'}",
    "comma_at_the_end": b'{"connect":"main",}',
    "comma_in_binds": b'{"sql":"COMMIT","binds":[1,]}',
    "comment": b'{"connect":"main"/* */}',
    "form_feed": b'\x0c{"connect":"main"}',
    "no_colon": b'{"connect" "main"}',
    "deep_array": b"[" * 200 + b"]" * 200,
    "percent_encoding": b"connect=main",
}


def json_forms():
    """Bodies that are calls in other spellings, and bodies that are none."""
    for name, body in TAKEN.items():
        yield f"json_{name}", HELLO + post(body) + SESSION
    for name, body in NO_CALLS.items():
        yield f"json_{name}", HELLO + post(body) + SESSION
    yield "json_one_after_the_other", b"".join(map(post, list(NO_CALLS.values())[:12])) + SESSION + HELLO


# Heads.

GOOD_HEADS = {
    "line_feeds_alone": get(end=b"\n"),
    "empty_line_first": END + SESSION,
    "line_feed_first": b"\n" + SESSION,
    "ends_with_a_line_feed": b"GET /session HTTP/1.1\r\nHost: a\r\n\n",
    "mixed_line_ends": b"GET /session HTTP/1.1\nHost: a\r\nAccept: b\n\r\n",
    "header_without_space": get("Host:a"),
    "header_without_value": get("Host:", "Accept: "),
    "header_with_tabs": get("Host:\t a \t"),
    "header_of_odd_signs": get("!#$%&'*+-.^_`|~09: x"),
    "header_value_of_any_signs": b"GET /session HTTP/1.1\r\nX: \"(),:;<=>?@[]{}\t\x80\xff\r\n\r\n",
    "header_twice": get("Host: a", "Host: b"),
    "other_headers": get("Host: a", "User-Agent: x/1", "Accept: */*", "Expect: 100-continue", "Upgrade: h2c", "TE: trailers"),
    "64_headers": get(*(f"H{k}: {k}" for k in range(MOST_HEADERS))),
    "of_8192_bytes": padded("GET /session HTTP/1.1", LONGEST_HEAD),
    "of_8191_bytes": padded("GET /session HTTP/1.1", LONGEST_HEAD - 1),
}

BAD_HEADS = {
    "two_line_feeds_first": b"\n\n" + SESSION,
    "two_empty_lines_first": END + END + SESSION,
    "no_method": b" /session HTTP/1.1\r\n\r\n",
    "no_target": b"GET HTTP/1.1\r\n\r\n",
    "no_version": b"GET /session\r\n\r\n",
    "two_spaces_before_target": b"GET  /session HTTP/1.1\r\n\r\n",
    "two_spaces_before_version": b"GET /session  HTTP/1.1\r\n\r\n",
    "space_behind_version": b"GET /session HTTP/1.1 \r\n\r\n",
    "tab_for_space": b"GET\t/session HTTP/1.1\r\n\r\n",
    "version_in_lower_case": b"GET /session http/1.1\r\n\r\n",
    "version_2": b"GET /session HTTP/2.0\r\n\r\n",
    "version_1_2": b"GET /session HTTP/1.2\r\n\r\n",
    "version_of_one_part": b"GET /session HTTP/1\r\n\r\n",
    "version_with_more": b"GET /session HTTP/1.10\r\n\r\n",
    "sign_in_the_method": b"G(T /session HTTP/1.1\r\n\r\n",
    "method_not_of_ascii": b"G\xc3\x89T /session HTTP/1.1\r\n\r\n",
    "control_in_the_target": b"GET /ses\x01sion HTTP/1.1\r\n\r\n",
    "delete_in_the_target": b"GET /session\x7f HTTP/1.1\r\n\r\n",
    "target_not_of_utf_8": b"GET /session\xff HTTP/1.1\r\n\r\n",
    "space_before_colon": b"GET /session HTTP/1.1\r\nHost : a\r\n\r\n",
    "header_without_colon": b"GET /session HTTP/1.1\r\nHost\r\n\r\n",
    "header_without_name": b"GET /session HTTP/1.1\r\n: a\r\n\r\n",
    "folded_header": b"GET /session HTTP/1.1\r\nHost: a\r\n b\r\n\r\n",
    "space_in_a_name": b"GET /session HTTP/1.1\r\nMy Host: a\r\n\r\n",
    "sign_in_a_name": b"GET /session HTTP/1.1\r\nHost(: a\r\n\r\n",
    "name_not_of_ascii": b"GET /session HTTP/1.1\r\nH\xc3\xb6st: a\r\n\r\n",
    "zero_in_a_value": b"GET /session HTTP/1.1\r\nHost: a\x00b\r\n\r\n",
    "control_in_a_value": b"GET /session HTTP/1.1\r\nHost: a\x0bb\r\n\r\n",
    "delete_in_a_value": b"GET /session HTTP/1.1\r\nHost: a\x7f\r\n\r\n",
    "carriage_return_in_a_value": b"GET /session HTTP/1.1\r\nHost: a\rb\r\n\r\n",
    "two_carriage_returns": b"GET /session HTTP/1.1\r\r\n\r\n",
    "binary": bytes(range(1, 32)) + b"\n\n",
    "only_words": b"hello\r\n\r\n",
    "answer": b"HTTP/1.1 200 OK\r\nContent-Length: 0\r\n\r\n",
    "65_headers": get(*(f"H{k}: {k}" for k in range(MOST_HEADERS + 1))),
    "65_headers_with_a_bad_one": get(*(f"H{k}: {k}" for k in range(MOST_HEADERS)), "Bad(: 1"),
}


def heads():
    """Heads that are taken and heads that are refused, and where a head is too long."""
    for name, data in GOOD_HEADS.items():
        yield f"head_{name}", data + HELLO
    for name, data in BAD_HEADS.items():
        yield f"bad_head_{name}", HELLO + data + SESSION
    yield "head_of_8193_bytes", padded("GET /session HTTP/1.1", LONGEST_HEAD + 1) + SESSION
    yield "head_without_end_of_8192_bytes", b"a" * LONGEST_HEAD
    yield "head_without_end_of_8191_bytes", b"a" * (LONGEST_HEAD - 1)
    yield "head_without_end_of_20000_bytes", HELLO + b"a" * 20000
    yield "bad_head_of_8192_bytes", padded("GET  /session HTTP/1.1", LONGEST_HEAD) + SESSION
    yield "bad_head_of_8193_bytes", padded("GET  /session HTTP/1.1", LONGEST_HEAD + 1) + SESSION
    yield "long_head_after_requests", (
        HELLO + SESSION + padded("GET /session HTTP/1.1", LONGEST_HEAD) + padded("GET /session HTTP/1.1", LONGEST_HEAD + 1)
    )
    yield "long_head_with_a_body", (
        padded("POST /call HTTP/1.1", LONGEST_HEAD, "Content-Length: 18") + b'{"connect":"main"}' + SESSION
    )
    yield "head_of_8192_bytes_by_a_line_feed", padded("GET /session HTTP/1.1", LONGEST_HEAD + 1)[:-2] + b"\n" + SESSION
    yield "head_of_8193_bytes_by_a_line_feed", padded("GET /session HTTP/1.1", LONGEST_HEAD + 2)[:-2] + b"\n" + SESSION
    yield "head_in_a_head", b"GET /session HTTP/1.1\r\nX: GET /session HTTP/1.1\r\n\r\n" + SESSION
    yield "only_empty_lines", b"\r\n" * 3
    yield "long_target", request(f"GET /{'x' * 6000} HTTP/1.1") + SESSION
    yield "long_method", request(f"{'GET' * 1000} /session HTTP/1.1") + SESSION


# Lengths, targets and methods.

GOOD_LENGTHS = {
    "odd_case": "cOnTeNt-LeNgTh:18",
    "spaces": "Content-Length: \t 18 \t",
    "leading_zeros": "Content-Length: 0000000018",
    "no_space": "content-length:18",
}
BAD_LENGTHS = {
    "eleven_digits": "00000000018",
    "sign": "+18",
    "minus": "-18",
    "letter": "1x",
    "no_digit": "",
    "point": "18.0",
    "list": "18, 18",
    "list_of_one": "18,",
    "hexadecimal": "0x12",
    "space_between": "1 8",
    "quotes": '"18"',
    "other_digits": "\u0661",
}
TRANSFER_ENCODINGS = {
    "chunked": ["Transfer-Encoding: chunked"],
    "identity": ["Transfer-Encoding: identity"],
    "empty": ["transfer-encoding:"],
    "and_length": ["Content-Length: 18", "TRANSFER-ENCODING: chunked"],
}
UNKNOWN_TARGETS = {
    "root": "/",
    "other": "/x",
    "slash_behind": "/call/",
    "slash_before": "//call",
    "query": "/call?x=1",
    "fragment": "/call#x",
    "upper_case": "/CALL",
    "longer": "/calls",
    "shorter": "/cal",
    "escape": "/%63all",
    "whole_address": "http://127.0.0.1/call",
    "star": "*",
    "no_slash": "call",
    "both": "/call/session",
    "dots": "/./call",
    "not_of_ascii": "/c\u00e4ll",
    "braces": "/{x}",
}
METHODS = (
    "GET", "HEAD", "PUT", "DELETE", "OPTIONS", "PATCH", "TRACE", "CONNECT", "post", "Post", "POSTS", "X-CALL", "!",
)


def lengths():
    """How the length of a body is told."""
    body = bytes_of(CONNECT)
    line = "POST /call HTTP/1.1"
    for name, header in GOOD_LENGTHS.items():
        yield f"length_with_{name}", request(line, header, body=body) + SESSION
    for name, value in BAD_LENGTHS.items():
        yield f"length_with_{name}", HELLO + request(line, f"Content-Length: {value}", body=body) + SESSION
    yield "length_twice", HELLO + request(line, "Content-Length: 18", "Content-Length: 18", body=body) + SESSION
    yield "length_twice_in_two_cases", request(line, "Content-Length: 18", "Host: a", "content-length: 18", body=body)
    yield "length_is_missing", HELLO + request(line, body=body) + SESSION
    yield "length_is_missing_and_no_body", request(line)
    yield "length_of_zero", request(line, "Content-Length: 0") + SESSION
    yield "length_of_zero_in_ten_digits", request(line, "Content-Length: 0000000000") + SESSION
    yield "length_too_short", request(line, "Content-Length: 17", body=body) + SESSION
    yield "length_too_long", request(line, "Content-Length: 19", body=body)
    yield "length_too_long_takes_the_next", request(line, "Content-Length: 19", body=body) + SESSION
    yield "length_of_65537", HELLO + request(line, "Content-Length: 65537") + SESSION
    yield "length_of_65537_in_ten_digits", request(line, "Content-Length: 0000065537") + SESSION
    yield "length_of_ten_nines", request(line, "Content-Length: 9999999999") + SESSION
    yield "length_of_4294967314", request(line, "Content-Length: 4294967314", body=body) + SESSION
    yield "longest_body", post(body + b" " * (LONGEST_BODY - len(body))) + SESSION
    yield "longest_body_that_is_no_call", HELLO + post(b"x" * LONGEST_BODY) + SESSION
    yield "longest_body_that_is_cut", HELLO + post(b"x" * LONGEST_BODY)[:-1]
    yield "body_too_long", HELLO + post(b"x" * (LONGEST_BODY + 1)) + SESSION
    yield "two_long_bodies", post(b" " * 40000 + body) + post(b" " * 30000 + bytes_of({"sql": SELECT_BAL}))
    for name, headers in TRANSFER_ENCODINGS.items():
        yield f"transfer_encoding_{name}", HELLO + request(line, *headers, body=body) + SESSION
    yield "transfer_encoding_of_a_get", HELLO + get("Transfer-Encoding: chunked") + SESSION
    yield "body_of_a_get", get("Content-Length: 3") + b"abc" + SESSION
    yield "body_of_a_get_without_length", get() + b"abc"
    yield "body_of_a_get_that_is_a_request", get(f"Content-Length: {len(HELLO)}") + HELLO + SESSION
    yield "body_that_looks_like_requests", post(SESSION + HELLO) + SESSION
    yield "zero_length_of_a_get", get("Content-Length: 0") + SESSION
    yield "bad_length_of_a_get", get("Content-Length: x") + SESSION
    yield "too_long_length_of_a_get", get("Content-Length: 70000") + SESSION


def targets():
    """Targets and methods."""
    for name, target in UNKNOWN_TARGETS.items():
        yield f"target_{name}", post(CONNECT, line=f"POST {target} HTTP/1.1") + SESSION
    for name, target in (("query", "/session?"), ("slash_behind", "/session/"), ("other", "/x"), ("root", "/")):
        yield f"target_of_a_get_{name}", get(line=f"GET {target} HTTP/1.1") + SESSION
    for method in METHODS:
        name = "sign" if method == "!" else method
        yield f"method_{name}_at_call", request(f"{method} /call HTTP/1.1") + SESSION
        if method not in ("GET", "X-CALL", "POSTS"):
            yield f"method_{name}_at_session", request(f"{method} /session HTTP/1.1") + SESSION
    yield "put_with_a_call", post(CONNECT, line="PUT /call HTTP/1.1") + SESSION
    yield "post_in_lower_case_with_a_call", post(CONNECT, line="post /call HTTP/1.1") + SESSION
    yield "post_at_session", post(CONNECT, line="POST /session HTTP/1.1") + SESSION
    yield "get_in_lower_case", get(line="get /session HTTP/1.1") + SESSION


def order_of_tests():
    """Requests with two faults, of which the first test decides."""
    yield "many_headers_and_transfer_encoding", get(*(f"H{k}: {k}" for k in range(MOST_HEADERS)), "Transfer-Encoding: x")
    yield "bad_head_and_no_length", b"POST /call HTTP/1.3\r\n\r\n"
    yield "transfer_encoding_and_bad_length", request("POST /call HTTP/1.1", "Content-Length: 1x", "Transfer-Encoding: chunked")
    yield "transfer_encoding_and_two_lengths", request(
        "POST /call HTTP/1.1", "Content-Length: 1", "Content-Length: 1", "Transfer-Encoding: chunked",
    )
    yield "transfer_encoding_and_long_body", request(
        "POST /call HTTP/1.1", "Transfer-Encoding: chunked", "Content-Length: 65537",
    )
    yield "transfer_encoding_and_unknown_target", get("Transfer-Encoding: chunked", line="GET /x HTTP/1.1")
    yield "no_length_and_unknown_target", request("POST /x HTTP/1.1") + SESSION
    yield "no_length_and_wrong_method", request("POST /session HTTP/1.1") + SESSION
    yield "two_lengths_and_long_body", request("POST /call HTTP/1.1", "Content-Length: 65537", "Content-Length: 65537")
    yield "bad_length_and_unknown_target", request("PUT /x HTTP/1.1", "Content-Length: a") + SESSION
    yield "long_body_and_unknown_target", request("POST /x HTTP/1.1", "Content-Length: 65537") + SESSION
    yield "long_body_and_wrong_method", request("PUT /call HTTP/1.1", "Content-Length: 65537") + SESSION
    yield "half_a_body_and_unknown_target", HELLO + request("POST /x HTTP/1.1", "Content-Length: 9", body=b"12345678")
    yield "half_a_body_and_wrong_method", request("PUT /call HTTP/1.1", "Content-Length: 9", body=b"12345678")
    yield "half_a_body_and_close", request(
        "POST /call HTTP/1.1", "Content-Length: 19", "Connection: close", body=bytes_of(CONNECT),
    )
    yield "unknown_target_and_wrong_method", request("PUT /x HTTP/1.1") + SESSION
    yield "unknown_target_and_no_call", post("x", line="POST /x HTTP/1.1") + SESSION
    yield "wrong_method_and_no_call", post("x", line="PUT /call HTTP/1.1") + SESSION
    yield "no_call_and_strange_bind", post('{"sql":"COMMIT","binds":[{"row":99}],"x":1}') + SESSION
    yield "strange_bind_and_too_many", post({"sql": "COMMIT", "binds": [row(99)] * 17}) + SESSION


def closing():
    """Requests that close, and what stands behind them."""
    yield "close", post(CONNECT, "Connection: close") + SESSION
    yield "close_in_odd_case", HELLO + get("cOnNeCtIoN: ClOsE") + SESSION
    yield "close_in_upper_case_with_spaces", HELLO + get("CONNECTION: \t CLOSE \t") + SESSION
    yield "close_in_the_second_header", HELLO + get("Connection: keep-alive", "Connection: close") + SESSION
    yield "close_in_the_first_header", get("Connection: close", "Connection: keep-alive") + SESSION
    yield "close_in_a_list", get("Connection: close, x") + SESSION
    yield "close_at_the_end_of_a_list", get("Connection: keep-alive, close") + SESSION
    yield "keep_alive", get("Connection: keep-alive") + SESSION
    yield "connection_without_value", get("Connection:") + SESSION
    yield "closed_is_not_close", get("Connection: closed") + get("Connection: clos") + get('Connection: "close"') + SESSION
    yield "other_header_with_close", get("Proxy-Connection: close", "X: close") + SESSION
    yield "version_1_0", HELLO + get(line="GET /session HTTP/1.0") + SESSION
    yield "version_1_0_with_a_call", post(CONNECT, line="POST /call HTTP/1.0") + SESSION
    yield "version_1_0_with_keep_alive", get("Connection: keep-alive", line="GET /session HTTP/1.0") + SESSION
    yield "version_1_0_without_length", request("POST /call HTTP/1.0") + SESSION
    yield "close_of_an_unknown_target", HELLO + get("Connection: close", line="GET /x HTTP/1.1") + SESSION
    yield "close_of_a_wrong_method", get("Connection: close", line="GET /call HTTP/1.1") + SESSION
    yield "close_of_no_call", HELLO + post("{}", "Connection: close") + SESSION
    yield "close_of_a_call", posts("UPDATE acct SET bal = 1") + post({"sql": "COMMIT"}, "connection: close") + sql(SELECT_BAL)
    yield "close_of_an_unfinished_transaction", (
        posts("UPDATE acct SET bal = 1") + post({"sql": SELECT_BAL}, "connection: close")
    )
    yield "close_of_a_disconnect", posts("COMMIT") + post(DISCONNECT, "Connection: close") + HELLO
    yield "close_and_many_behind", post(CONNECT, "Connection: close") + SESSION * 50
    yield "close_and_a_head_too_long_behind", get("Connection: close") + b"a" * 9000
    yield "close_without_line_feed_behind", get("Connection: close") + b"half"


# What comes when, and where the input ends.


def cuts():
    """Conversations whose input ends at some place."""
    whole = HELLO + sql(INSERT_ITEM) + SESSION
    for place in (1, 5, 11, 19, 21, 22, 40, 41, 42, 43, 44, 62):
        yield f"ends_at_{place}", whole[:place]
    for place in range(len(HELLO), len(whole), 11):
        yield f"ends_at_{place}", whole[:place]
    yield "ends_behind_the_first", HELLO
    yield "ends_without_the_last_byte", HELLO[:-1]
    yield "ends_in_the_first_line", b"GET /session HTTP/1.1"
    yield "ends_before_the_empty_line", b"GET /session HTTP/1.1\r\nHost: a\r\n"
    yield "ends_within_the_empty_line", b"GET /session HTTP/1.1\r\nHost: a\r\n\r"
    yield "ends_in_a_bad_head", b"GET  /session HTTP/7.1\r\nHost: a\r\n"
    yield "ends_in_an_unfinished_transaction", posts("DELETE FROM acct", "SELECT * FROM acct") + b"POST /call"


def many_requests():
    """Many requests in one write."""
    yield "twenty_sessions", SESSION * 20
    yield "calls_and_sessions", (HELLO + SESSION) * 6
    yield "twelve_inserts", HELLO + sql(INSERT_ITEM) * 12 + sql("COMMIT") + sql("SELECT COUNT(*), SUM(qty) FROM item")
    yield "twenty_updates", HELLO + sql("UPDATE acct SET bal = bal + 1") * 20 + sql("COMMIT")
    yield "good_and_bad_in_turn", b"".join([
        HELLO, post("{"), SESSION, request("GET /x HTTP/1.1"), sql("COMMIT", row(50)), request("PUT /session HTTP/1.1"),
        sql("COMMIT"), post("x", line="POST / HTTP/1.1"), SESSION,
    ])
    yield "no_answer_is_a_call", b"".join([post("{"), request("GET /x HTTP/1.1"), request("GET /call HTTP/1.1"), SESSION])
    yield "empty_lines_between", (END + SESSION) * 3 + b"\n" + HELLO
    yield "empty_line_behind_a_body", HELLO + END + SESSION
    yield "two_empty_lines_between", SESSION + END + END + SESSION
    yield "line_feeds_alone_with_calls", (
        post(CONNECT, end=b"\n") + post({"sql": SELECT_BAL}, "Host: a", end=b"\n") + get(end=b"\n")
    )
    yield "a_browser", get(
        "Host: 127.0.0.1:7080", "User-Agent: Mozilla/5.0 (X11; Linux x86_64)", "Accept: text/html,*/*;q=0.8",
        "Accept-Language: en", "Accept-Encoding: gzip, deflate", "Connection: keep-alive", "Upgrade-Insecure-Requests: 1",
        "Sec-Fetch-Dest: document",
    )
    yield "a_library", (
        post(CONNECT, "Host: 127.0.0.1:7080", "Accept-Encoding: identity", "Content-Type: application/json")
        + post(DISCONNECT, "Host: 127.0.0.1:7080", "Accept-Encoding: identity", "Content-Type: application/json")
    )
    yield "a_tool", post(
        CONNECT, "Host: 127.0.0.1:7080", "User-Agent: curl/8.0", "Accept: */*",
        "Content-Type: application/x-www-form-urlencoded",
    )


def broken_requests():
    """Each of these is a connection of its own."""
    yield "broken_8192_letters", b"a" * LONGEST_HEAD
    yield "broken_get_of_call", request("GET /call HTTP/1.1")
    yield "broken_get_of_another_target", request("GET /x HTTP/1.1")
    yield "broken_post_without_length", request("POST /call HTTP/1.1")
    yield "broken_length_of_65537", request("POST /call HTTP/1.1", "Content-Length: 65537")
    yield "broken_length_of_1x", request("POST /call HTTP/1.1", "Content-Length: 1x")
    yield "broken_service_of_a_number", request("POST /call HTTP/1.1", "Content-Length: 13", body=b'{"connect":1}') + SESSION
    yield "broken_without_the_last_byte", request("POST /call HTTP/1.1", "Content-Length: 18", body=b'{"connect":"main"}')[:-1]


# Conversations of random requests.


class Random:
    """Numbers that look random, the same each time."""

    def __init__(self, seed):
        self.state = seed

    def below(self, bound):
        self.state = (self.state * 6364136223846793005 + 1442695040888963407) % 2**64
        return (self.state >> 33) % bound

    def of(self, choices):
        return choices[self.below(len(choices))]


STATEMENTS = (
    "SELECT * FROM acct ORDER BY id", SELECT_BAL, "SELECT SUM(bal), COUNT(*) FROM acct", "SELECT no, qty FROM item",
    "COMMIT", "COMMIT", "ROLLBACK", "SET TRANSACTION READ ONLY", INSERT_ITEM, INSERT_ITEM,
    "UPDATE acct SET bal = bal - 7 WHERE id = 2", "UPDATE acct SET bal = bal * 2", "DELETE FROM acct WHERE bal < 60",
    "DELETE FROM item", "SELECT s.NEXTVAL FROM dual", "SELECT", "UPDATE item SET qty = qty * 30",
)
BODIES = (b"", b"{", b'{"connect":1}', b'{"sql":"COMMIT","binds":[1.5]}', b'{"disconnect":0}')
LINES = ("GET /x HTTP/1.1", "GET /call HTTP/1.1", "PUT /session HTTP/1.1", "DELETE /call HTTP/1.1")
HEADERS = (("Host: a",), (), ("Accept: */*", "X-Note: 1"), ("connection: Keep-Alive",))
LAST = (
    b"", b"", b"GET /sess", b"hello\n\n", request("POST /call HTTP/1.1"),
    request("POST /call HTTP/1.1", "Content-Length: 070000"), get("Connection: close") + SESSION,
    get(line="GET /session HTTP/1.0") + HELLO, get("Transfer-Encoding: chunked"),
)


def random_call(random):
    kind = random.below(12)
    if kind < 6:
        return {"sql": random.of(STATEMENTS)}
    if kind == 6:
        return {"sql": f"INSERT INTO acct VALUES ({random.below(6)}, :1)", "binds": [random.below(90)]}
    if kind == 7:
        return {"binds": [random.below(5)], "sql": "SELECT id, bal FROM acct WHERE id >= :1 ORDER BY bal DESC"}
    if kind == 8:
        return {"sql": "SELECT ROWID FROM acct WHERE ROWID = :1", "binds": [row(1 + random.below(5))]}
    if kind == 9:
        return {"sql": "UPDATE item SET qty = :2 WHERE no = :1", "binds": [draw(9 + random.below(4)), random.below(1200)]}
    return random.of((CONNECT, CONNECT, {"connect": "report"}, {"connect": "none"}, DISCONNECT))


def random_request(random):
    kind = random.below(12)
    if kind == 0:
        return get(*random.of(HEADERS))
    if kind == 1:
        return request(random.of(LINES), *random.of(HEADERS))
    if kind == 2:
        return post(random.of(BODIES), *random.of(HEADERS))
    return post(random_call(random), *random.of(HEADERS))


def random_conversations():
    random = Random(2026)
    for number in range(RANDOM_CONVERSATIONS):
        first = HELLO if random.below(5) else b""
        middle = b"".join(random_request(random) for _ in range(3 + random.below(7)))
        yield f"random_{number}", first + middle + random.of(LAST)


GROUPS = (
    ordinary, binds, json_forms, heads, lengths, targets, order_of_tests, closing, cuts, many_requests, broken_requests,
    random_conversations,
)


def broken_everywhere():
    """The broken requests once more, cut after each byte, and byte by byte."""
    for name, data in broken_requests():
        yield f"{name}_cut_everywhere", "every", data
        yield f"{name}_byte_by_byte", "bytes", data


def failing_inputs():
    """Conversations whose input fails at the read of this number."""
    yield "input_fails_at_once", "0", HELLO
    yield "input_fails_behind_a_connect", "1", HELLO
    yield "input_fails_behind_calls", "1", HELLO + sql("UPDATE acct SET bal = 1") + SESSION
    yield "input_fails_in_a_request", "1", HELLO + SESSION[:-1]
    yield "input_fails_in_a_long_request", "1", HELLO + padded("GET /session HTTP/1.1", LONGEST_HEAD) + SESSION
    yield "input_fails_behind_a_long_request", "2", HELLO + padded("GET /session HTTP/1.1", LONGEST_HEAD) + SESSION
    yield "input_ends_before_it_fails", "2", HELLO


def all_cases():
    """All conversations. Of those whose chunking does not matter every second one is cut."""
    cases = [case for group in GROUPS for case in group()]
    cases = [(name, ("whole", "cut")[number % 2], data) for number, (name, data) in enumerate(cases)]
    cases += [*broken_everywhere(), *failing_inputs()]
    names = [name for name, _, _ in cases]
    assert len(set(names)) == len(names), "a name stands twice"
    return cases
