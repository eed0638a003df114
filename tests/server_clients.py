"""Rows of tests/server about its clients: what they send, wait for and never read, how they die, and how many they may be."""
import os
import random
import resource
import signal
import socket
import struct
import time

import frames as f
from serving import PATIENCE, Server, hangs_up, in_child, make_queue, bodies_of, wait_for


# ---- frames


def rows_of_frames(room, server):
    with server.client() as beside:
        id = make_queue(beside)
        for name, data in (("a length of 11", struct.pack("<I", 11) + bytes(11)), ("a length of 1,045", struct.pack("<I", 1045)),
                           ("the greatest length", b"\xff" * 4), ("words", b"GET / HTTP/1.0\r\n\r\n"),
                           ("a frame, and then garbage", f.cancel(1, 9) + b"\xff" * 4)):
            with server.client() as client:
                client.put(data)
                room.judge(name, True, hangs_up(client))
        for name, data in (("an operation that there is not", f.request(5, 99)), ("a flag that it has not", f.request(5, f.STAT, f.NOWAIT, id=id)),
                           ("a length that is none of its own", f.request(5, f.RECEIVE, id=id, fields=b"x")),
                           ("a send without a type", f.request(5, f.SEND, id=id))):
            with server.client() as client:
                client.put(data + f.receive(6, id))
                room.judge(name, (5, f.WRONG_FRAME, True), (*client.answer()[:2], hangs_up(client)))
        room.judge("nothing was taken or waits", 0, f.read_info(beside.call(f.info).fields).waiting)
        half = server.client()
        half.put(f.send(1, id, 1, b"half")[:20])
        room.judge("beside half a frame", f.DONE, beside.call(f.send, id, 1, b"whole").code)
        half.close()
        for byte in f.send(2, id, 1, b"in pieces"):
            beside.put(bytes([byte]))
        room.judge("a frame byte by byte", f.DONE, beside.answer().code)
        beside.put(b"".join(f.send(number, id, 1, b"%d" % number) for number in range(3, 43)))
        room.judge("forty at once are answered in order", [*range(3, 43)], [beside.answer().number for _ in range(40)])
        room.judge("all of them are there", [b"whole", b"in pieces", *(b"%d" % it for it in range(3, 43))], bodies_of(beside, id))
        long = os.urandom(1024)
        room.judge("the longest body", (f.DONE, [long]), (beside.call(f.send, id, 1, long).code, bodies_of(beside, id)))
        beside.call(f.remove, id)


# ---- clients that wait, die, and are many


def rows_of_waits(room, server):
    with server.client() as client, server.client() as waits:
        id = make_queue(client)
        waiting = lambda: f.read_info(client.call(f.info).fields).waiting  # noqa: E731
        waits.put(f.receive(1, id))
        room.judge("a call waits", True, wait_for(lambda: waiting() == 1))
        room.judge("a send", f.DONE, client.call(f.send, id, 1, b"woken").code)
        room.judge("it is woken", b"woken", f.read_message(waits.answer().fields).body)
        waits.put(f.receive(2, id) + f.cancel(3, 2))
        room.judge("it is cancelled", (2, f.CANCELLED), waits.answer()[:2])
        # each way in which a client that waits may end
        for name, end in (("hangs up", None), ("is killed", signal.SIGKILL), ("dies, and its child has the socket", 0)):
            child = in_child(lambda: die_waiting(server, id, end))
            room.judge(f"a client waits that {name}", True, wait_for(lambda: waiting() == 1))
            if end:
                os.kill(child, end)
            with open(room.path("go"), "w"):
                pass
            room.judge(f"it {name}: its wait is gone", True, wait_for(lambda: waiting() == 0))
            os.waitpid(child, 0)
            os.unlink(room.path("go"))
            client.call(f.send, id, 1, b"left")
            room.judge(f"it {name}: it takes nothing", [b"left"], bodies_of(client, id))
        rows_of_many_waits(room, server, client, id, waiting)
        client.call(f.remove, id)


def die_waiting(server, id, end):
    client = server.client()
    client.put(f.receive(1, id))
    go = os.path.dirname(server.path) + "/go"
    if end == 0 and os.fork() == 0:
        time.sleep(3)
        os._exit(0)
    wait_for(lambda: os.path.exists(go))
    if end is None:
        client.close()


def rows_of_many_waits(room, server, client, id, waiting):
    with server.client() as many:
        many.put(b"".join(f.receive(number, id, type=number) for number in range(1, 66)))
        room.judge("64 of its calls are under way", True, wait_for(lambda: waiting() == 64))
        room.judge("and no more", 64, waiting())
        client.call(f.send, id, 7, b"seven")
        room.judge("one is answered, and the next one begins", (7, True), (many.answer().number, wait_for(lambda: waiting() == 64)))
        client.call(f.send, id, 65, b"65")
        room.judge("which is answered", 65, many.answer().number)
        many.put(f.receive(66, id) + f.cancel(0, 3))
        room.judge("a cancel behind the most is heard", (3, f.CANCELLED), many.answer()[:2])
    room.judge("none waits for who is gone", True, wait_for(lambda: waiting() == 0))
    before = memory_of(server)
    clients = [server.client() for _ in range(1000)]
    for number, it in enumerate(clients, 1):
        it.put(f.receive(number, id))
    room.judge("a thousand wait", True, wait_for(lambda: waiting() == 1000))
    # (a sanitizer has shadows of all)
    room.judge("each takes less than 16 KiB", True, memory_of(server) - before < (16000 if server.is_plain else 64000))
    # (they arrived in an order of which only each one's own calls are sure)
    for number in range(1000):
        client.call(f.send, id, 1, b"%d" % number)
    got = [int(f.read_message(it.answer().fields).body) for it in clients]
    room.judge("each gets one", [*range(1000)], sorted(got))
    for it in clients:
        it.close()


def memory_of(server):
    """In units of 1,024 bytes."""
    with open(f"/proc/{server.process.pid}/status") as file:
        return int(next(it for it in file if it.startswith("VmRSS")).split()[1])


def rows_of_readers(room, server):
    with server.client() as client, server.client() as slow:
        id, before = make_queue(client), memory_of(server)
        slow.socket.setblocking(False)
        sent, end, batch = 0, time.monotonic() + 3, b"".join(f.stat(number, id) for number in range(64))
        left = b""
        while time.monotonic() < end and sent < 200000:
            try:
                left = left or batch
                done = slow.socket.send(left)
                left = left[done:]
                sent += 0 if left else 64
            except BlockingIOError:
                time.sleep(0.05)
        room.judge("who never reads is not read for ever", True, 64 <= sent < 200000)
        room.judge("others are served", f.DONE, client.call(f.stat, id).code)
        room.judge("little memory is held", True, memory_of(server) - before < 8000)
        slow.socket.settimeout(PATIENCE)
        numbers = [slow.answer().number for _ in range(sent)]
        room.judge("then it reads each answer, in order", True, numbers == [at % 64 for at in range(sent)])
        client.call(f.remove, id)


def draw_frame(rng, ids):
    """A request that may be any, or that has something wrong."""
    number, id = rng.randrange(2**32), rng.choice(ids)
    frame = bytearray(rng.choice([
        lambda: f.get(number, key=rng.choice([None, 7, 2**32 - 1]), create=True, mode=rng.choice([0o600, 0o666])),
        lambda: f.send(number, id, rng.choice([1, 5, 0, -2**63, 2**63 - 1]), bytes(rng.choice([0, 1, 1024])), nowait=rng.random() < 0.5),
        lambda: f.receive(number, id, rng.choice([0, 5, -5, -2**63]), rng.choice([0, 10, 2**32 - 1]), nowait=rng.random() < 0.5),
        lambda: f.set(number, id, rng.choice([0, 16384, 2**32 - 1]), user=rng.choice([None, 5]), mode=rng.choice([None, 0o666])),
        lambda: f.request(number, rng.randrange(256), rng.randrange(256), rng.randrange(2**16), id, bytes(rng.randrange(40))),
        lambda: f.cancel(number, rng.randrange(3)),
        lambda: f.nth(number, rng.randrange(300)),
    ])())
    if rng.random() < 0.1:
        frame[rng.randrange(len(frame))] = rng.randrange(256)
    return bytes(frame)


def rows_of_garbage(room, server):
    """Clients that send whatever it is, in pieces, and go when they like."""
    rng = random.Random(203)
    with server.client() as beside:
        ids = [0, 1, 2, make_queue(beside), 2**32 - 1]
        for _ in range(200):
            with server.client() as client:
                data = b"".join(draw_frame(rng, ids) for _ in range(rng.choice([1, 5, 100])))
                try:
                    for at in range(0, len(data), 700):
                        client.socket.send(data[at:at + 700], socket.MSG_DONTWAIT)
                except OSError:
                    pass  # it was hung up on, or is not read from any more
                if rng.random() < 0.5:
                    time.sleep(0.002)
        room.judge("beside clients that send anything", f.DONE, beside.call(f.info).code)
        room.judge("none of them waits", True, wait_for(lambda: f.read_info(beside.call(f.info).fields).waiting == 0))


# Those that are made of one server.
def times_of(*processes):
    """What they have had of a processor, in hundredths of a second."""
    found = 0
    for it in processes:
        with open(f"/proc/{it}/stat") as file:
            found += sum(map(int, file.read().rsplit(")", 1)[1].split()[11:13]))
    return found


def rows_of_rest(room, server):
    """Behind many calls both processes sleep, where one looks for what comes while they are made."""
    both = server.process.pid, server.core()
    with server.client() as client:
        id = make_queue(client)
        for _ in range(500):
            client.call(f.stat, id)
        time.sleep(0.1)
        before = times_of(*both)
        time.sleep(1)
        room.judge("a server that nobody asks sleeps", True, times_of(*both) - before <= 1)


ROWS = rows_of_frames, rows_of_waits, rows_of_readers, rows_of_garbage, rows_of_rest


def rows_of_limits(room):
    path = room.file()
    # A client takes two descriptors, so that with one of these it is the first which lacks, and with the other the second.
    limit = lambda most: lambda: resource.setrlimit(resource.RLIMIT_NOFILE, (most, most))  # noqa: E731
    for name, server in (("40 descriptors", lambda: Server(room, path, preexec_fn=limit(40))),
                         ("41 descriptors", lambda: Server(room, path, preexec_fn=limit(41))),
                         ("3 clients", lambda: Server(room, path, "--clients", "3"))):
        server = server()
        served, refused = [], 0
        for _ in range(50):
            try:
                served.append(server.client())
            except ConnectionError:
                refused += 1
        room.judge(f"{name}: some are served", (True, 50), (1 < len(served) < 40, len(served) + refused))
        if name == "3 clients":
            room.judge(name, 3, len(served))
        room.judge(f"{name}: who is served is answered", f.DONE, served[-1].call(f.info).code)
        for it in served:
            it.close()
        room.judge(f"{name}: others are served again", True, wait_for(lambda: can_dial(server)))
        room.judge(f"{name}: it ends", 0, server.end())


def rows_of_fullness(room):
    server = Server(room, room.file(), "--waits", "2")
    with server.client() as client, server.client() as other:
        id = make_queue(client)
        client.put(b"".join(f.receive(number, id) for number in (10, 11, 12)))
        room.judge("a third call that would wait", (12, f.NO_MEMORY), client.answer()[:2])
        room.judge("the others wait still", f.DONE, other.call(f.send, id, 1, b"one").code)
        room.judge("and are answered", 10, client.answer().number)
    room.judge("two wait: it ends", 0, server.end())


def can_dial(server):
    try:
        server.client().close()
        return True
    except ConnectionError:
        return False
