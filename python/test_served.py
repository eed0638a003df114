"""What msgq.py does at a server. Run with the program that serves and the path of a new file."""

import errno
import os
import signal
import subprocess
import sys
import threading
import time

import msgq
from expecting import expect, finish, refusal

signal.signal(signal.SIGINT, signal.default_int_handler)
program, path = sys.argv[1:]


class Server:
    """A server of the file, from its first word on."""

    def __init__(self):
        self.process = subprocess.Popen([program, "serve", path], stdout=subprocess.PIPE)
        expect(self.process.stdout.readline()[:8], b"serving ", "it serves")

    def ends(self, number=signal.SIGTERM):
        self.process.send_signal(number)
        self.process.stdout.close()
        return self.process.wait(20)


def in_thread(results, call, *arguments, **more):
    """A thread that notes what a call gives or raises, and that has begun to wait."""
    def work():
        try:
            results.append(call(*arguments, **more))
        except OSError as error:
            results.append(type(error))
    thread = threading.Thread(target=work)
    thread.start()
    time.sleep(0.2)
    return thread


def calls(queues):
    queue = queues.get(7, create=True)
    queue.send(b"one\0two", type=2)
    queue.send(b"", type=1)
    expect(queue.receive(-2), msgq.Message(b"", 1, os.getpid(), 2), "the lowest type")
    expect(queue.receive().body, b"one\0two", "bytes")
    expect(refusal(queue.receive, wait=False), errno.ENOMSG, "no message")
    expect(refusal(queue.receive, timeout=0.01), errno.ETIMEDOUT, "a wait that ends")
    expect(refusal(queues.get, 77), errno.ENOENT, "a key that no queue has")
    expect(refusal(queues.stop), errno.ENOTSUP, "a stop")
    queue.set(100, mode=0o640)
    expect((queue.stat().qbytes, queue.stat().mode, queue.stat().key), (100, 0o640, 7), "what was set")
    expect([found.id for found in queues], [1], "the queues")
    for body in (b"a", b"b"):
        queue.send(body)
    expect([message.body for message in queue], [b"a", b"b"], "the messages of a queue")
    queues.save()
    queues.note()
    return queue


def many(queues):
    queue = queues.get(8, create=True)
    serials = queue.send_all([b"%d" % n for n in range(70)], type=6)
    expect(serials, list(range(serials[0], serials[0] + 70)), "seventy at once")
    expect([int(message.body) for message in queue], list(range(70)), "in their order")


def reservations(queue):
    queue.send(b"job", type=3)
    with queue.reserve() as job:
        expect((job.body, job.type, job.sender), (b"job", 3, os.getpid()), "what is held")
        expect(refusal(queue.receive, wait=False), errno.ENOMSG, "it is not there meanwhile")
    expect(refusal(queue.reserve, wait=False), errno.ENOMSG, "it was acknowledged")
    queue.send(b"job")
    try:
        with queue.reserve(timeout=1):
            raise KeyError
    except KeyError:
        pass
    job = queue.reserve()
    expect(job.message.body, b"job", "it was released")
    job.release()
    expect(refusal(job.acknowledge), errno.EINVAL, "what is held no longer")
    with queue.reserve() as job:
        job.acknowledge()
    expect(refusal(queue.reserve, timeout=0.01), errno.ETIMEDOUT, "a wait that ends")


def signals(queue):
    began = time.monotonic()
    timer = threading.Timer(0.3, os.kill, (os.getpid(), signal.SIGINT))
    timer.start()
    try:
        queue.receive()
        expect("received", "interrupted", "Ctrl-C")
    except KeyboardInterrupt:
        expect(time.monotonic() - began < 5, True, "Ctrl-C is heard soon")
    timer.join()
    seen = []
    signal.signal(signal.SIGALRM, lambda number, frame: seen.append(number))
    signal.setitimer(signal.ITIMER_REAL, 0.05, 0.05)
    expect(refusal(queue.receive, timeout=0.5), errno.ETIMEDOUT, "a handler that returns ends no wait")
    signal.setitimer(signal.ITIMER_REAL, 0)
    expect(len(seen) > 2, True, "it has run")


def processes(queues, queue):
    child = os.fork()
    if child == 0:
        try:
            queue.send(b"of the child")
            queues.close()
        finally:
            os._exit(not queues._at is None)
    expect(os.waitpid(child, 0)[1], 0, "the child of a fork")
    message = queue.receive(timeout=5)
    expect((message.body, message.sender), (b"of the child", child), "what it has sent")


def servers(queue, server):
    results = []
    thread = in_thread(results, queue.receive)
    expect(server.ends(), 0, "a server that is told to end")
    server = Server()
    queue.send(b"later")
    thread.join()
    expect([it.body for it in results], [b"later"], "who waits is asked again")
    del results[:]
    threads = [in_thread(results, queue.receive), in_thread(results, queue.receive, again=True)]
    server.ends(signal.SIGKILL)
    threads[0].join()
    expect(results, [ConnectionResetError], "who waits does not know")
    server = Server()
    queue.send(b"again")
    threads[1].join()
    expect(results[1].body, b"again", "who wants it is asked again")
    return server


msgq.create(path)
expect(refusal(msgq.connect, path + ".socket"), errno.ENOENT, "nobody serves")
queues = msgq.attach(path)
expect(queues.is_served, False, "a file that is opened")
expect(refusal(queues.get(5, create=True).reserve), errno.ENOTSUP, "it reserves nothing")
queues.abandon()
server = Server()
with msgq.connect(path + ".socket") as queues:
    expect(queues.is_served, True, "a server")
queues = msgq.attach(path)
queue = calls(queues)
many(queues)
reservations(queue)
signals(queue)
processes(queues, queue)
server = servers(queue, server)
queues.close()
expect(refusal(queue.send, b"x"), ValueError, "a handle that was let go")
expect(server.ends(), 0, "the server")
finish()
