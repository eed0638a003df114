"""What becomes of a file that nobody closes, of a fork, and of a wait that a signal comes upon: each in a Python of its own."""

import os
import time

import msgq
from expecting import expect, run

OPEN = "import atexit, errno, os, pathlib, signal, sys, threading, time, msgq; queues = msgq.open(sys.argv[1]); queue = queues.get(7)\n"


def bodies(path):
    """The messages of a file, which is empty then."""
    with msgq.open(path) as queues:
        return [message.body for message in queues.get(7)]


def try_exits(path):
    one = "queue.send(b'x')\n"
    in_function = "def send():\n    mine = msgq.open(sys.argv[1])\n    mine.get(7).send(b'x')\nqueues.close()\nsend()\n"
    for what, program, status, saved in (
        ("an end", OPEN + one, 0, [b"x"]),
        ("sys.exit", OPEN + one + "sys.exit(3)", 3, [b"x"]),
        ("an exception", OPEN + one + "1 / 0", 1, [b"x"]),
        ("a file that nobody refers to", OPEN + one + "queues = queue = None\nmsgq.open(sys.argv[1]).abandon()", 0, [b"x"]),
        ("a file of a function", OPEN + in_function + "msgq.open(sys.argv[1]).abandon()", 0, [b"x"]),
        ("a file of a cycle", OPEN + one + "it = []\nit.append([queues, it])", 0, [b"x"]),
        ("what atexit calls last", "import atexit\natexit.register(lambda: queue.send(b'y'))\n" + OPEN + one, 0, [b"x", b"y"]),
        ("a thread that waits", OPEN + "threading.Thread(target=queue.receive, args=(5,), daemon=True).start()\ntime.sleep(0.1)\n" + one,
         0, [b"x"]),
        ("os._exit", OPEN + one + "os._exit(0)", 0, []),
        ("a note and os._exit", OPEN + one + "queues.note()\nos._exit(0)", 0, [b"x"]),
        ("close", OPEN + one + "queues.close()", 0, [b"x"]),
        ("with", OPEN + "queues.close()\nwith msgq.open(sys.argv[1]) as queues: queues.get(7).send(b'x')", 0, [b"x"]),
        ("with and an exception", OPEN + "\nwith queues:\n    queue.send(b'x')\n    sys.exit(3)", 3, []),
        ("with, an exception and a thread that waits", OPEN + "\nwith queues:\n    threading.Thread(target=queue.receive, args=(5,), "
         "daemon=True).start()\n    time.sleep(0.1)\n    queue.send(b'x')\n    sys.exit(3)", 3, []),
    ):
        warns = "close" not in what and "with" not in what and "_exit" not in what
        for flags in ((), ("-Wdefault",), ("-Werror",))[:3 if what == "an end" else 2]:
            told, _, errors = run(path, program, *flags)
            expect(told, status, f"{what} {flags}: the status")
            expect(bodies(path), saved, f"{what} {flags}: what is saved")
            expect(errors.count("ResourceWarning: unclosed file of queues"), 1 if warns and flags else 0, f"{what} {flags}: warnings, {errors}")
            if not flags:
                expect("" if what == "an exception" else errors, "", f"{what}: errors")


def try_save_that_fails(path):
    limit = "import resource; resource.setrlimit(resource.RLIMIT_FSIZE, (4096, 4096))\n"
    for end in ("", "queues = queue = None\nprint('after')"):
        status, _, errors = run(path, OPEN + "queue.send(b'x')\n" + limit + end)
        expect((status, "File too large" in errors), (0, True), f"a save at the end that fails: {errors}")
        expect(bodies(path), [], "what it saves")


FORK = OPEN + """
read = lambda: pathlib.Path(sys.argv[1]).read_bytes()
before = read()
queue.send(b'parent')
sys.stdout.flush()
child = os.fork()
if child == 0:
    {child}
_, status = os.waitpid(child, 0)
print(os.waitstatus_to_exitcode(status), read() == before)
queue.send(b'after')
queues.close()
"""


def refused(call):
    return f"try: {call}\n    except OSError as error: sys.exit(error.errno != errno.ENOTSUP)\n    sys.exit(1)"


def try_forks(path):
    """A child never writes its parent's file, and says nothing of it."""
    for what, child, status in (("ends", "sys.exit(0)", 0), ("lets go", "queues = queue = None; sys.exit(0)", 0),
                                ("leaves a block", "with queues: sys.exit(4)", 4), ("ends a block", "with queues: pass\n    sys.exit(0)", 0),
                                *((call, refused(call), 0) for call in ("queues.save()", "queues.close()", "queue.send(b'child')",
                                                                       "queue.receive()", "queue.stat()"))):
        told = run(path, FORK.format(child=child), "-Wdefault")
        expect(told, (0, f"{status} True\n", ""), f"a child that {what}")
        expect(bodies(path), [b"parent", b"after"], f"what a parent saved whose child {what}")


SOON = """
def soon(*deeds):
    def act():
        time.sleep(0.3)
        for deed in deeds: deed()
    actor = threading.Thread(target=act)
    actor.start()
    return actor
interrupt = lambda number=signal.SIGINT: os.kill(os.getpid(), number)
"""
# An interrupt, and at once what the call waits for. It is done in that turn of the wait, and the interrupt comes behind it; or, rarely,
# its turn ended between the two, and it is not done.
BOTH = OPEN + SOON + """
done = interrupts = wrong = 0
{before}
for _ in range(5):
    {fill}
    actor, is_done = soon(interrupt, lambda: {wakes}), False
    try:
        told = {call}
        is_done = True
        time.sleep(9)
    except KeyboardInterrupt:
        actor.join()
        interrupts += 1
        done += is_done
        wrong += not ({right})
print(done > 2, interrupts, wrong)
"""


def try_signals(path):
    for call in ("queue.receive()", "queue.receive(timeout=30)"):
        begun = time.monotonic()
        status, _, errors = run(path, OPEN + SOON + f"queue.send(b'x', 2)\nsoon(interrupt)\n{call.replace('(', '(5, ', 1)}")
        expect((status, errors.strip().endswith("KeyboardInterrupt")), (-2, True), f"Ctrl-C on {call}: {errors}")
        expect(time.monotonic() - begun < 10, True, f"Ctrl-C on {call}, heard soon")
        expect(bodies(path), [b"x"], f"Ctrl-C on {call}: what is saved")
    status, out, errors = run(path, OPEN + SOON + "queue.set(0)\nsoon(interrupt)\nqueue.send(b'x')")
    expect((status, bodies(path)), (-2, []), f"Ctrl-C on a send: {errors}")
    with msgq.open(path) as queues:
        queues.get(7).set(16_384)
    message = BOTH.format(before="", fill="list(queue)", wakes="queue.send(b'm')", call="queue.receive()",
                          right="told.body == b'm' if is_done else queue.stat().qnum == 1")
    expect(run(path, message)[:2], (0, "True 5 0\n"), "Ctrl-C and a message in one turn")
    room = BOTH.format(before="queue.set(4)", fill="list(queue); queue.send(b'full')", wakes="queue.receive()", call="queue.send(b'more')",
                       right="queue.stat().qnum == is_done")
    expect(run(path, room)[:2], (0, "True 5 0\n"), "Ctrl-C and room in one turn")
    bodies(path)
    with msgq.open(path) as queues:
        queues.get(7).set(16_384)
    ends = "signal.signal(signal.SIGTERM, lambda *_: sys.exit(3))\nsoon(lambda: interrupt(signal.SIGTERM), lambda: queue.send(b'm'))\n"
    status, out, errors = run(path, OPEN + SOON + ends + "print(queue.receive().body)\nqueue.stat()\nprint('not here')")
    expect((status, out.count("b'm'") + len(bodies(path)), "not here" in out), (3, 1, False), f"a handler that raises, and a message: {errors}")
    notes = "begun = time.monotonic()\nsignal.signal(signal.SIGALRM, lambda *_: print('heard', queue.stat().qnum, time.monotonic() < begun + 3))\nsignal.setitimer(signal.ITIMER_REAL, 0.1)\n"
    status, out, errors = run(path, OPEN + notes + "try: queue.receive(timeout=4)\nexcept TimeoutError: print('over')")
    expect((status, out), (0, "heard 0 True\nover\n"), f"a handler while a call waits: {errors}")
    stops = "signal.signal(signal.SIGALRM, lambda *_: queues.stop())\nsignal.setitimer(signal.ITIMER_REAL, 0.1)\n"
    status, out, errors = run(path, OPEN + stops + "try: queue.receive()\nexcept InterruptedError: print('stopped')")
    expect((status, out), (0, "stopped\n"), f"a handler that stops: {errors}")
    closes = "signal.signal(signal.SIGALRM, lambda *_: queues.close())\nsignal.setitimer(signal.ITIMER_REAL, 0.1)\n"
    status, out, errors = run(path, OPEN + closes + "try: queue.receive()\nexcept ValueError: print('closed')")
    expect((status, out), (0, "closed\n"), f"a handler that closes: {errors}")


def try_closes(path):
    """A file is not closed under the calls of other threads."""
    told = run(path, OPEN + """
told = []
def receive():
    try: queue.receive()
    except InterruptedError: told.append('stopped')
waiter = threading.Thread(target=receive)
waiter.start()
time.sleep(0.3)
for let_go in (queues.close, queues.abandon):
    try: let_go()
    except OSError as error: told.append(error.errno == errno.EBUSY)
queues.stop()
waiter.join()
queues.close()
print(told)
""")
    expect(told, (0, "[True, True, 'stopped']\n", ""), "a close while a thread waits")


def try_quick_closes(path):
    """Who has heard of a thread's last call closes at once, though that call may not have returned."""
    told = run(path, OPEN + """
queues.close()
for _ in range(300):
    with msgq.open(sys.argv[1]) as queues:
        queue = queues.get(7)
        sender = threading.Thread(target=queue.send, args=(b'done',))
        sender.start()
        queue.receive()
    sender.join()
""", limit=120)
    expect(told, (0, "", ""), "files that are closed at once")


def try_all(path):
    path = os.path.abspath(path)
    msgq.create(path)
    with msgq.open(path) as queues:
        queues.get(7, create=True)
    for part in (try_exits, try_save_that_fails, try_forks, try_signals, try_closes, try_quick_closes):
        part(path)
