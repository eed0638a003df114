"""Every argument of every call at its bounds and beyond. The numbers are those of docs/QUEUES.md, "Limits", and of the types in msgq.h."""

import array
import errno
import math
import os
import threading
from fractions import Fraction

import msgq
from expecting import expect, refusal

EINVAL = errno.EINVAL
NO_NUMBER = [True, False, 1.0, "1", b"1", ()]
# Behind 32 bits.
NO_WORD = [-1, -7, 2**32, 2**32 + 1, 2**32 + 300, 2**64 + 7]
NO_TYPE = [2**63, 2**64 + 3, 2**64 + 5, 2**70, -(2**63) - 1]
NO_TIME = {EINVAL: [-1, -1e-9, math.nan, -math.inf], OverflowError: [math.inf, 1e300, 10**400, threading.TIMEOUT_MAX * 2],
           TypeError: [True, "1", b"1", ()]}
MODES = {None: [0, 0o640, 0o777], OverflowError: [0o1000, 0o1777, 0o3600, 2**16, 2**32 + 0o600, -1], TypeError: NO_NUMBER}


class Rows:
    """For each argument a call with it alone; what tells the value once it was taken; and the values by what they are refused."""

    def __init__(self, queues, path):
        self.queues, self.queue, self.told, self.made = queues, queues.get(), None, path + ".made"

    def note(self, value):
        self.told = value

    def noted(self):
        return self.told

    def stat(self, name):
        return lambda: getattr(self.queue.stat(), name)

    def received(self, name):
        return lambda: getattr(self.queue.receive(wait=False), name)

    def with_one(self, **more):
        """Receives from a queue of one message, of 1,024 bytes and type 5."""
        def call(name, value):
            self.queue.send(b"A" * 1024, 5, wait=False)
            try:
                self.note(len(self.queue.receive(**{name: value}, **more).body))
            finally:
                list(self.queue)
        return call

    def create(self, pages):
        msgq.create(self.made, pages)
        self.note(os.path.getsize(self.made) // 4096)
        os.remove(self.made)

    def all(self):
        queues, queue, receive = self.queues, self.queue, self.with_one(wait=False)
        yield "id", lambda it: self.note(queues.queue(it).stat().id), self.noted, {
            None: [queue.id], EINVAL: [0, 4_294_967_294, 2**32 - 1], OverflowError: NO_WORD, TypeError: [None, *NO_NUMBER]}
        yield "key", lambda it: self.note(queues.get(it, create=True).stat().key), self.noted, {
            None: [0, 7, 2**32 - 1, None], OverflowError: NO_WORD, TypeError: NO_NUMBER}
        yield "mode of get", lambda it: self.note(queues.get(mode=it).stat().mode), self.noted, MODES
        # Bits beyond the nine ask for no queue.
        yield "mode of get, no queue", lambda it: queues.get(99, mode=it), None, {errno.ENOENT: [0o600], OverflowError: [0o1600, 0o3600]}
        yield "type of send", lambda it: queue.send(b"", it, wait=False), self.received("type"), {
            None: [1, 2**63 - 1], EINVAL: [0, -1, -(2**63)], OverflowError: NO_TYPE, TypeError: [None, *NO_NUMBER]}
        yield "body", lambda it: queue.send(it, wait=False), self.received("body"), {
            None: [b"", b"\0a", b"A" * 1024], EINVAL: [b"A" * 1025, bytes(2**20)], TypeError: [5, True, 1.5, "ab", [1, 2], None, iter(b"ab")]}
        yield "type of receive", lambda it: receive("type", it), None, {
            None: [0, 5, -5, -(2**63)], errno.ENOMSG: [1, -4, 2**63 - 1], OverflowError: NO_TYPE, TypeError: [None, *NO_NUMBER]}
        yield "size", lambda it: receive("size", it), None, {
            None: [1024, 1025, 2**31, 2**64 - 1], errno.E2BIG: [0, 1, 1023], OverflowError: [-1, 2**64, 2**64 + 1024],
            TypeError: [None, *NO_NUMBER]}
        yield "qbytes", queue.set, self.stat("qbytes"), {
            None: [0, 65_536], EINVAL: [65_537, 2**32 - 1], OverflowError: [2**32 + 9, *NO_WORD], TypeError: NO_NUMBER}
        yield "uid", lambda it: queue.set(uid=it), self.stat("uid"), {None: [2**32 - 1, 0], OverflowError: NO_WORD, TypeError: NO_NUMBER}
        yield "gid", lambda it: queue.set(gid=it), self.stat("gid"), {None: [2**32 - 1, 0], OverflowError: NO_WORD, TypeError: NO_NUMBER}
        yield "mode of set", lambda it: queue.set(mode=it), self.stat("mode"), MODES
        yield "timeout of receive", lambda it: self.with_one()("timeout", it), None, {None: [0, 0.01, Fraction(1, 9), threading.TIMEOUT_MAX], **NO_TIME}
        queue.set(0)
        short = {errno.ETIMEDOUT: [0, 0.01, Fraction(1, 9)], **NO_TIME}
        yield "timeout of receive, no message", lambda it: queue.receive(timeout=it), None, short
        yield "timeout of send, no room", lambda it: queue.send(b"a", timeout=it), None, short
        yield "pages", self.create, self.noted, {
            None: [258], EINVAL: [0, 257, 65_537, 2**32 - 1], OverflowError: NO_WORD, TypeError: [None, *NO_NUMBER]}
        paths = {EINVAL: [self.made + "\0b", self.made.encode() + b"\0b", "\0"], TypeError: [5, None, ()]}
        yield "path of create", msgq.create, None, paths
        yield "path of open", msgq.open, None, paths


def state(queues):
    """What a refused call leaves as it is: all but the traces of the messages that the table sends and takes."""
    return [queue.stat()._replace(lspid=0, lrpid=0, stime=0, rtime=0) for queue in queues]


def try_all(path):
    msgq.create(path)
    with msgq.open(path) as queues:
        rows = Rows(queues, path)
        for name, call, tell, outcomes in rows.all():
            for expected, values in outcomes.items():
                for value in values:
                    before, found = state(queues), refusal(call, value)
                    expect(found, expected, f"{name} {value!r:.40}")
                    if found is None and tell:
                        expect(tell(), value, f"{name} {value!r:.40}, told")
                    elif found is not None:
                        expect(state(queues) == before, True, f"{name} {value!r:.40} has changed nothing")
        expect(os.path.exists(rows.made), False, "a file of the path before its zero byte")
        try_lengths(queues.get())
        try_classes(queues)


def try_lengths(queue):
    for size, length in ((0, 0), (1, 1), (1023, 1023), (1024, 1024), (1025, 1024), (2**64 - 1, 1024)):
        queue.send(b"A" * 1024)
        expect(queue.receive(size=size, cut=True, wait=False).body, b"A" * length, f"cut to {size}")
    words = array.array("H", [0x4141, 0x4242])
    for body, expected in ((bytearray(b"ab"), b"ab"), (memoryview(b"abcdef")[::2], b"ace"), (words, words.tobytes())):
        queue.send(body)
        expect(queue.receive(wait=False).body, expected, f"a body of {type(body).__name__}")


def try_classes(queues):
    """What fits and is none is a ValueError, and the OSError of EINVAL as what the library refuses."""
    queue = queues.get()
    # Python spells no number of so many digits.
    expect(refusal(queues.queue, 10**5000), OverflowError, "a number of 5,001 digits")
    for call in (lambda: queue.send(b"", 0), lambda: queue.set(65_537), lambda: queues.queue(0).stat(), lambda: msgq.create("a\0b"), lambda: queue.receive(timeout=-1)):
        try:
            call()
            expect("nothing", "Invalid", "what is raised")
        except ValueError as error:
            expect((type(error).__name__, getattr(error, "errno", None)), ("Invalid", EINVAL), "what is raised")
