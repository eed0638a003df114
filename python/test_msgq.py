"""What msgq.py does beside the library: bytes, exceptions, iteration, timeouts. Run with the path of a new file."""

import errno
import os
import signal
import sys
import threading
from pathlib import Path

import msgq
import test_arguments
import test_endings
import test_loading
from expecting import expect, finish, refusal

def expect_words(call, arguments, *words):
    try:
        call(*arguments)
        expect("nothing", words, "what is raised")
    except OSError as error:
        for word in words:
            expect(word in str(error), True, f"{word!r} in {str(error)!r}")


# Where the shell that began this ignores the signal, as it does for a command in the background, so would all that is begun here.
signal.signal(signal.SIGINT, signal.default_int_handler)
path = sys.argv[1]
msgq.create(path)
expect(refusal(msgq.create, path), errno.EEXIST, "a file that is there")
with msgq.open(path) as queues:
    expect(refusal(msgq.open, path), errno.EBUSY, "a file that is open")
    expect(refusal(msgq.open, path, timeout=0.05), errno.ETIMEDOUT, "one that stays open")
    expect(refusal(msgq.open, path, wait=True, timeout=-1), errno.EINVAL, "a timeout that is none")
    expect(refusal(msgq.open, path, timeout="1"), TypeError, "a timeout that is no number")
    expect(refusal(queues.get, 77), errno.ENOENT, "a key that no queue has")
    expect_words(queues.get, (77,), "77: ", "no queue has this key")
    expect_words(queues.queue(9).stat, (), "queue ", "9: ")
    queue = queues.get(7, create=True, mode=0o640)
    queue.send(b"one\0two", type=2)
    queue.send(b"", type=1)
    expect(queue.receive(-2), msgq.Message(b"", 1, os.getpid(), 2), "the lowest type")
    expect(queue.receive().body, b"one\0two", "bytes")
    expect(refusal(queue.receive, wait=False), errno.ENOMSG, "no message")
    expect(refusal(queue.receive, timeout=0.01), errno.ETIMEDOUT, "a wait that ends")
    for body in (b"a", b"b", b"c"):
        queue.send(body)
    expect([message.body for message in queue], [b"a", b"b", b"c"], "the messages of a queue")
    expect(queue.send_all([b"one\0two", bytearray(b"three"), b""], type=4), [6, 7, 8], "messages at once")
    expect([(message.body, message.type) for message in queue], [(b"one\0two", 4), (b"three", 4), (b"", 4)], "what they are")
    expect(queue.send_all([]), [], "no messages at once")
    queue.set(100, mode=0o600)
    try:
        queue.send_all([b"x" * 50, b"y" * 50, b"z"])
        expect("nothing", "BlockingIOError", "what is raised")
    except BlockingIOError as error:
        expect(error.serials, [9, 10, 0], "what was put")
    expect([message.body[:1] for message in queue], [b"x", b"y"], "what was put")
    for wrong in ([5], ["text"], 5, [b"x" * 1025]):
        expect(refusal(queue.send_all, wrong) in (TypeError, errno.EINVAL), True, f"send_all of {type(wrong)}")
    expect((queue.stat().qbytes, queue.stat().mode, queue.stat().key), (100, 0o600, 7), "what was set")
    other = queues.get()
    expect(other.stat().key, None, "a private queue")
    expect([found.id for found in queues], [1, 2], "the queues")
    other.remove()
    expect(refusal(other.stat), errno.EIDRM, "a queue that was removed")
    waiter = threading.Thread(target=lambda: results.append(queue.receive().body))
    results = []
    waiter.start()
    queue.send(b"woken")
    waiter.join()
    expect(results, [b"woken"], "a receiver that waited")
    queue.send(b"kept")
try:
    with msgq.open(path) as queues:
        queues.get(7).receive()
        raise KeyError
except KeyError:
    pass
with msgq.open(path) as queues:
    expect([message.body for message in queues.get(7)], [b"kept"], "what an exception leaves")
queues = msgq.open(path)
closer = threading.Timer(0.3, queues.close)
closer.start()
with msgq.open(path, wait=True) as other:
    expect(other.get(7).stat().key, 7, "a file that is opened in its turn")
closer.join()
with open(path, "r+b") as file:
    file.truncate(4096)
try:
    msgq.open(path)
    expect("opened", "refused", "a file that is cut")
except msgq.Fault as fault:
    expect((fault.fault, fault.filename), (22, path), "its fault")
expect_words(msgq.open, (path,), "fault 22", path)
expect_words(msgq.open, ("/etc/passwd",), "fault 2", "/etc/passwd")
manual = Path(__file__).resolve().parent.parent / "man" / "msgq.3"
expect(f'"msgq {msgq.__version__}"' in manual.read_text(encoding="utf-8").splitlines()[0], True, "the version of the manual")
test_arguments.try_all(path + ".arguments")
test_endings.try_all(path + ".endings")
test_loading.try_all(path + ".loading")
finish()
