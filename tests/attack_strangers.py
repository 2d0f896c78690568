"""Clients that leave in the middle, that say nothing, that send what is no request and that never read, beside one that is served."""
import select
import socket

from attack_program import CONNECT, SESSION, Client, Service, in_folder, outcome, post, same, sql, until

# Of a client that never reads: how long nothing more may be sent before it counts as stuck, and how much it sends at most.
STUCK, MOST_SENT = 0.5, 64 << 20
# How often the other client is answered beside it.
BESIDE = 8
SELECT = sql("SELECT bal FROM acct WHERE id = :1", 1)


def half_head(client):
    client.send(b"POST /call HT")


def half_body(client):
    client.send(post(CONNECT)[:-3])


def half_length(client):
    client.send(b"POST /call HTTP/1.1\r\nContent-Length: 6553")


def nothing(client):
    pass


def letters(client):
    client.send(b"a" * 8192)
    same("8,192 letters", client.answer(), (431, b"", True))
    same("8,192 letters: the end", client.stream.recv(1), b"")


def many_letters(client):
    """More than is read of them."""
    client.send(b"a" * 65536)
    same("65,536 letters", client.answer(), (431, b"", True))


def call_and_half(client):
    """A call, and half of another."""
    same("a connect", client.ask(CONNECT), outcome("connected"))
    client.send(post(SELECT)[:20])


def never_reads(client):
    """Asks until nothing more goes out."""
    sent, asked = 0, SESSION * 1000
    client.stream.setblocking(False)
    while sent < MOST_SENT and select.select([], [client.stream], [], STUCK)[1]:
        sent += client.stream.send(asked)


STRANGERS = (half_head, half_body, half_length, nothing, letters, many_letters, call_and_half, never_reads)


def served_beside(good):
    """The good client is answered while the other one keeps still."""
    for _ in range(BESIDE):
        same("a call beside a slow client", good.ask(SELECT), outcome("rows", [[100]]))


def leave(client, way):
    if way == "reset":
        client.reset()
    elif way == "half":
        client.stream.shutdown(socket.SHUT_WR)
    client.stream.close()


def visit(service, good, stranger, way):
    """One stranger comes and leaves. Its thread ends, and its descriptors are given back at once."""
    threads, descriptors = service.threads(), service.descriptors()
    client = Client(service.port, room=4096)
    stranger(client)
    served_beside(good)
    if stranger not in (letters, many_letters):
        until("another thread", lambda: service.threads() == threads + 1)
    leave(client, way)
    until(f"{stranger.__name__}, {way}: its thread ends", lambda: service.threads() == threads)
    same(f"{stranger.__name__}, {way}: descriptors", service.descriptors(), descriptors)


@in_folder
def strangers(program, folder):
    """Each of them, leaving in each way, beside a client that is served."""
    visits = [(stranger, way) for stranger in STRANGERS for way in ("close", "reset")] + [(half_head, "half"), (nothing, "half")]
    with Service(program, folder, len(visits) + 1) as service, Client(service.port) as good:
        same("a connect", good.ask(CONNECT), outcome("connected"))
        for stranger, way in visits:
            visit(service, good, stranger, way)
        good.stream.close()
        calls = 2 + BESIDE * len(visits) + 2 * sum(stranger is call_and_half for stranger, _ in visits)
        service.finish(calls)
    for session, (stranger, _) in enumerate(visits, 1):
        same(f"calls of {stranger.__name__}", len(service.said(session)), 2 if stranger is call_and_half else 0)
    service.replays(program, calls)
    return f"{len(visits)} clients that broke off, said nothing or never read, each beside a client that was served"
