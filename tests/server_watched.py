"""Rows of tests/server about what the relay itself answers: what it counts, and the messages of a queue as they come; and about what one user
may have."""
import os
import subprocess
import sys
import time

import frames as f
from serving import PATIENCE, TOP, Server, hangs_up, make_queue, wait_for


def counts_of(client):
    return f.read_counts(client.call(f.counts).fields)


def grown(client, before, *kinds):
    """How much counts have grown since others were told."""
    now = counts_of(client)
    return [now.get(it, 0) - before.get(it, 0) for it in kinds]


# ---- counts


def rows_of_counts(room, server):
    with server.client() as client, server.client() as waits:
        id = make_queue(client, key=70)
        before = counts_of(client)
        for it in (f.send, id, 3, b"one"), (f.send, id, 3, b"two"), (f.receive, id), (f.stat, id), (f.stat, 2**32 - 1), (f.send, id, 0, b""):
            client.call(*it)
        room.judge("calls by operation", [3, 1, 2], grown(client, before, (f.CALLS, f.SEND), (f.CALLS, f.RECEIVE), (f.CALLS, f.STAT)))
        room.judge("refusals by errno", [2, 0], grown(client, before, (f.REFUSALS, f.EINVAL), (f.REFUSALS, f.EAGAIN)))
        room.judge("messages of a queue", [2, 1], grown(client, before, (f.WERE_SENT, id), (f.WERE_RECEIVED, id)))
        room.judge("groups, of one call each", 6, grown(client, before, (f.GROUPS, 2**32 - 1))[0])
        times = [label for kind, label in counts_of(client) if kind == f.GROUPS]
        room.judge("their times, each of no more than those of the next one", (sorted(times), True),
                   (times, sorted(counts_of(client)[f.GROUPS, it] for it in times) == [counts_of(client)[f.GROUPS, it] for it in times]))
        room.judge("they took some time", True, 0 < grown(client, before, (f.TIME_OF_GROUPS, 0))[0] < 10**10 * PATIENCE)
        waits.put(f.receive(1, id, type=9) + f.receive(2, id, type=9) + f.receive(3, id, type=9, nowait=True))
        room.judge("calls that wait", True, wait_for(lambda: counts_of(client).get((f.WAITS, id)) == 2))
        waits.close()
        room.judge("and do no longer", True, wait_for(lambda: (f.WAITS, id) not in counts_of(client)))
        room.judge("clients", (1, 2), (counts_of(client)[f.CLIENTS, 0], min(2, counts_of(client)[f.CAME, 0])))
        room.judge("when it began", True, abs(counts_of(client)[f.BEGAN, 0] - time.time()) < 86400)
        client.call(f.remove, id)
        room.judge("nothing of a queue that is gone", [], [it for it in counts_of(client) if it[1] == id and it[0] in (f.WERE_SENT, f.WERE_RECEIVED)])
    for name, frame in (("counts with an id", f.request(5, f.COUNTS, id=1)), ("counts with a flag", f.request(5, f.COUNTS, 1)),
                        ("counts with fields", f.request(5, f.COUNTS, fields=b"x")), ("a follow with a mode", f.request(5, f.FOLLOW, mode=1)),
                        ("a follow with fields", f.request(5, f.FOLLOW, fields=b"x"))):
        with server.client() as client:
            client.put(frame)
            room.judge(name, (5, f.WRONG_FRAME, True), (*client.answer()[:2], hangs_up(client)))
    with server.client() as greedy, server.client() as client:
        greedy.socket.setblocking(False)
        for _ in range(2000):
            try:
                greedy.socket.send(f.counts(1) * 100)
            except BlockingIOError:
                break
        room.judge("who asks for counts and never reads holds up nobody", f.DONE, client.call(f.info).code)
        greedy.socket.settimeout(PATIENCE)
        room.judge("and is answered once it reads", [1] * 300, [greedy.answer().number for _ in range(300)])


# ---- followers


def rows_of_followers(room, server):
    with server.client() as client, server.client() as one, server.client() as two:
        id, other = make_queue(client, key=71), make_queue(client, key=72)
        room.judge("a queue that is not there", (f.EINVAL, b""), one.call(f.follow, 2**32 - 1)[1:4:2])
        room.judge("a queue is followed", [f.DONE] * 2, [one.call(f.follow, id).code, two.call(f.follow, id).code])
        long = bytes(range(100))
        serials = [int.from_bytes(client.call(f.send, id, type, body).fields, "little") for type, body in ((5, b"short"), (2**63 - 1, long), (1, b""))]
        client.call(f.send, other, 1, b"another queue's")
        wanted = [(f.DONE, f.A_MESSAGE, f.Event(serial, os.getpid(), len(body), type, body[:32]))
                  for serial, type, body in zip(serials, (5, 2**63 - 1, 1), (b"short", long, b""))]
        for name, it in ("one", one), ("two", two):
            came = [it.answer() for _ in range(3)]
            room.judge(f"what comes is told, follower {name}", wanted, [(it.code, it.value, f.read_event(it.fields)) for it in came])
        room.judge("what is taken is not told, nor what is refused", (f.DONE, f.EAGAIN),
                   (client.call(f.receive, id).code, fill(client, id)))
        two.put(f.cancel(0, 1))
        numbers = []
        while (answer := two.answer()).code == f.DONE:
            numbers.append(answer.value)
        room.judge("a cancel ends it, behind what came", (1, f.CANCELLED, {f.A_MESSAGE}), (*answer[:2], set(numbers)))
        two.put(f.follow(9, id) + f.cancel(0, 9) + f.stat(10, id))
        room.judge("one that is cancelled at once", [(9, f.CANCELLED), (10, f.DONE)], sorted(two.answer()[:2] for _ in range(2)))
        room.judge("one follower is left", 1, counts_of(client)[f.FOLLOWERS, 0])
        with server.client() as third:
            third.put(b"".join(f.follow(number, id) for number in range(64)))
            room.judge("64 of one connection", [f.DONE] * 64, [third.answer().code for _ in range(64)])
            room.judge("are counted", 65, counts_of(client)[f.FOLLOWERS, 0])
        room.judge("who hangs up follows no longer", True, wait_for(lambda: counts_of(client)[f.FOLLOWERS, 0] == 1))
        client.call(f.remove, id)
        while (answer := one.answer()).code == f.DONE:
            pass
        room.judge("the queue is removed", f.EIDRM, answer.code)
        room.judge("nobody follows", 0, counts_of(client).get((f.FOLLOWERS, 0), 0))
        rows_of_waiting_sends(room, client, one, other)
        rows_of_slow_followers(room, server, client, other)
        client.call(f.remove, other)


def fill(client, id):
    """Sends until there is no room, and tells the refusal."""
    while (answer := client.call(f.send, id, 1, bytes(1024), nowait=True)).code == f.DONE:
        pass
    return answer.code


def rows_of_waiting_sends(room, client, one, id):
    """A send that waits for room is told once it is made."""
    fill(client, id)
    client.put(f.send(900, id, 6, b"waited" + bytes(1018)))
    room.judge("a queue that is full is followed", f.DONE, one.call(f.follow, id).code)
    one.call(f.receive, id)
    told, sent = sorted([one.answer(), client.answer()], key=lambda it: it.number)
    room.judge("a send that waited is told", (900, f.DONE, 1024, b"waited"),
               (*sent[:2], f.read_event(told.fields).length, f.read_event(told.fields).start[:6]))
    one.close()
    while client.call(f.receive, id, nowait=True).code == f.DONE:
        pass


def rows_of_slow_followers(room, server, client, id):
    """Who does not read is told what it missed, and holds up nobody."""
    with server.client() as slow:
        slow.put(b"".join(f.follow(number, id) for number in range(64)))
        room.judge("one follows many times", [f.DONE] * 64, [slow.answer().code for _ in range(64)])
        sent, before = 0, counts_of(client).get((f.WERE_UNTOLD, 0), 0)
        while counts_of(client).get((f.WERE_UNTOLD, 0), 0) == before and sent < 20000:
            for _ in range(50):
                client.call(f.send, id, 1, b"")
                client.call(f.receive, id)
            sent += 50
        room.judge("some is not told to who does not read", True, sent < 20000)
        told = [0] * 64
        while sum(told) < 64 * sent:
            answer = slow.answer()
            told[answer.number] += 1 if answer.value == f.A_MESSAGE else int.from_bytes(answer.fields, "little")
        room.judge("it is told how many it missed", [sent] * 64, told)
        client.call(f.send, id, 4, b"again")
        room.judge("and what comes again", [4] * 64, [f.read_event(slow.answer().fields).type for _ in range(64)])
        client.call(f.receive, id)


# Those that are made of one server.
ROWS = rows_of_counts, rows_of_followers


def rows_of_ends(room):
    """A follower is told that the server ends."""
    server = Server(room, room.file())
    with server.client() as client, server.client() as one:
        one.call(f.follow, make_queue(client))
        server.process.terminate()
        room.judge("a follower as it ends", (1, f.ENDS, True), (*one.answer()[:2], hangs_up(one)))
    room.judge("it ends", (0, ""), (server.wait(), server.said()))


# ---- one user


def rows_of_bounds(room):
    server = Server(room, room.file(), "--clients", "3", "--user-clients", "2", "--user-waits", "2", "--mode", "666")
    user = os.geteuid()
    with server.client() as client, server.client() as other:
        room.judge("a third client of one user", True, is_refused(server))
        room.judge("and a fourth", True, is_refused(server))
        rows_of_user_waits(room, server, client, other)
        refused = [counts_of(client).get((f.TURNED_AWAY, why), 0) for why in (1, 2)]
        room.judge("they are counted", [0, 2], refused)
    if user == 0:
        server.end()
        room.judge("which is said once in a minute", f"msgq: user {user} has as many clients as one may have, 2: others of it are hung up on\n", server.said())
        return
    room.judge("once they have gone there is room", True, wait_for(lambda: not is_refused(server)))
    server.end()


def is_refused(server):
    try:
        server.client().close()
        return False
    except ConnectionError:
        return True


def rows_of_user_waits(room, server, client, other):
    id = make_queue(client, mode=0o666)
    client.put(f.receive(11, id, type=1) + f.receive(12, id, type=2) + f.receive(13, id, type=3))
    room.judge("a third call of one user that would wait", (13, f.NO_MEMORY), client.answer()[:2])
    room.judge("one that need not wait is made", [f.DONE, f.DONE],
               [other.call(f.send, id, 4, b"four").code, other.call(f.receive, id, type=4).code])
    room.judge("nor is one refused that says so itself", f.ENOMSG, other.call(f.receive, id, type=4, nowait=True).code)
    if os.geteuid() == 0:
        room.judge("another user's may wait", f"{f.DONE} 21", wait_as_another(server, other, id))
    room.judge("one is answered, and another may wait", (f.DONE, 12), (other.call(f.send, id, 2, b"two").code, client.answer().number))
    client.put(f.receive(14, id, type=3))
    room.judge("it does", True, wait_for(lambda: f.read_info(other.call(f.info).fields).waiting == 2))
    room.judge("and is answered", (f.DONE, 14), (other.call(f.send, id, 3, b"three").code, client.answer().number))


def wait_as_another(server, other, id):
    """What a receive of another user is answered, which waits beside two of this one."""
    script = ("import os, sys; sys.path.insert(0, sys.argv[1]); import frames as f\n"
              "os.setgroups([]); os.setgid(65534); os.setuid(65534)\n"
              "client = f.Client(sys.argv[2], 60); client.put(f.receive(21, int(sys.argv[3]), type=21)); answer = client.answer()\n"
              "print(answer.code, answer.number)\n")
    child = subprocess.Popen([sys.executable, "-c", script, f"{TOP}/tests", server.socket, str(id)], stdout=subprocess.PIPE, text=True)
    wait_for(lambda: f.read_info(other.call(f.info).fields).waiting == 3)
    other.call(f.send, id, 21, b"for it")
    return child.communicate(timeout=PATIENCE)[0].strip()
