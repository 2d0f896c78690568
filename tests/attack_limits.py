"""What no client may do: hold up the others, see what another session has not committed, take more than a fixed amount of memory by a request."""
import threading

from attack_program import CONNECT, Client, Service, Wrong, in_folder, outcome, post, same, sql

# How much memory one request may take, in KiB, beside what its answer holds, and how much a connection may that waits for the end
# of one; README tells both.
MOST_OF_A_REQUEST, MOST_OF_A_WAIT = 4096, 1024
TIMES, WAITING = 5, 64
SLOW, CALLS = 40, 100
SELECT = sql("SELECT bal FROM acct WHERE id = 1")
UPDATE = sql("UPDATE acct SET bal = 7 WHERE id = 1")


def large_bodies():
    """Bodies of 65,536 bytes, of which most are no call."""
    yield b"[" * 65536
    yield b"[" + b"0," * 32767 + b"0"
    yield b'{"sql":"' + b"a" * 65526 + b'"}'
    yield b'{"a":' * 13107 + b"1"
    yield b'{"binds":[' + b'"",' * 21000 + b'""],"sql":"COMMIT"}' + b" " * 2507
    yield b'{"sql":"COMMIT"' + b" " * 65520 + b"}"
    yield b'{"sql":"' + b"\\u0061" * 900 + b'"' + b" " * 60126 + b"}"


def large_requests():
    """Requests as long as they may be: a head of 8,192 bytes and such a body."""
    for body in large_bodies():
        body = (body + b" " * 65536)[:65536]
        head = b"POST /call HTTP/1.1\r\nContent-Length: 65536\r\nX-Long: "
        yield head + b"a" * (8188 - len(head)) + b"\r\n\r\n" + body


@in_folder
def memory(program, folder):
    """The peak grows by no more than a few requests of so much, however many there were."""
    with Service(program, folder, 1) as service, Client(service.port) as client:
        same("a connect", client.ask(CONNECT), outcome("connected"))
        before = service.peak()
        for request in list(large_requests()) * TIMES:
            client.send(request)
            client.answer()
        grown = service.peak() - before
        if grown > MOST_OF_A_REQUEST:
            raise Wrong(f"large requests took {grown} KiB")
        client.stream.close()
        service.ended()
    return grown


@in_folder
def waiting_memory(program, folder):
    """Sixty-four connections, each of which has sent all of a long request but its last byte."""
    request = next(large_requests())
    with Service(program, folder, WAITING) as service:
        before, clients = service.peak(), [Client(service.port) for _ in range(WAITING)]
        for client in clients:
            client.send(request[:-1])
        for client in clients:
            client.send(request[-1:])
            same("a long request", client.answer()[0], 400)
        grown = service.peak() - before
        if grown > WAITING * MOST_OF_A_WAIT:
            raise Wrong(f"{WAITING} connections took {grown} KiB")
        for client in clients:
            client.stream.close()
        service.finish(0)
    return grown


def slowly(client, request, goes_on):
    """Sends one byte after the other, for as long as the others are served."""
    for place in range(len(request)):
        client.send(request[place : place + 1])
        goes_on.wait(0.001)


@in_folder
def isolation(program, folder):
    """One session writes and does not commit, slow ones send byte by byte, and another is answered as if they were not there."""
    with Service(program, folder, SLOW + 2) as service, Client(service.port) as writer, Client(service.port) as reader:
        slow, done = [Client(service.port) for _ in range(SLOW)], threading.Event()
        threads = [threading.Thread(target=slowly, args=(client, post(CONNECT)[:-1], done)) for client in slow]
        for thread in threads:
            thread.start()
        for client in (writer, reader):
            same("a connect", client.ask(CONNECT), outcome("connected"))
        same("an update", writer.ask(UPDATE), outcome("count", 1))
        for _ in range(CALLS):
            same("what the reader sees", reader.ask(SELECT), outcome("rows", [[100]]))
            same("an update of a held row", reader.ask(UPDATE), outcome("refused", 20))
        done.set()
        same("a commit", writer.ask(sql("COMMIT"))["outcome"]["committed"][0]["now"], [1, 7])
        same("what the reader sees then", reader.ask(SELECT), outcome("rows", [[7]]))
        for thread in threads:
            thread.join()
        for client in (writer, reader, *slow):
            client.stream.close()
        calls = 2 + 2 + 2 * CALLS + 2 + 1
        service.finish(calls)
    service.replays(program, calls)


def limits(program):
    isolation(program)
    return (f"{2 * CALLS} calls beside an open write and {SLOW} slow clients; {memory(program)} KiB for {7 * TIMES} long requests one "
            f"after the other, {waiting_memory(program)} KiB for {WAITING} at once")
