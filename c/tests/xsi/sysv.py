"""What Python's sysv_ipc does with queues: run on the system's own and by `msgq with`, it prints the same."""
import os
import signal
import threading
import time

import sysv_ipc

KEY = int(os.environ["XSI_KEY"])


def attempt(name, call):
    try:
        print(name, call())
    except (sysv_ipc.Error, OSError) as error:
        print(name, type(error).__name__, error)


queue = sysv_ipc.MessageQueue(KEY, sysv_ipc.IPC_CREX, mode=0o600, max_message_size=1024)
print(queue.key == KEY, oct(queue.mode), queue.max_size, queue.current_messages, queue.uid == os.geteuid(), queue.cuid == os.geteuid(),
      queue.gid == os.getegid(), queue.last_send_pid, abs(queue.last_change_time - time.time()) < 3)
queue.send("hello", type=5)
queue.send(b"abc\0d", type=2)
print(queue.current_messages, queue.last_send_pid == os.getpid(), abs(queue.last_send_time - time.time()) < 3)
print(queue.receive(type=-5), queue.receive(), queue.last_receive_pid == os.getpid())
attempt("nothing", lambda: queue.receive(block=False))
for size in 0, 1, 1023, 1024:
    queue.send(b"x" * size)
    print(size, len(queue.receive()[0]))
queue.max_size = 2000
queue.mode = 0o640
print(queue.max_size, oct(queue.mode))
attempt("twice", lambda: sysv_ipc.MessageQueue(KEY, sysv_ipc.IPC_CREX))
attempt("no such key", lambda: sysv_ipc.MessageQueue(KEY + 1))

told = []
thread = threading.Thread(target=lambda: told.append(queue.receive()))
thread.start()
time.sleep(0.1)
queue.send("to a thread")
thread.join()
print(told)

child = os.fork()
if child == 0:
    queue.send("of a child", type=9)
    print(queue.receive(type=10), flush=True)
    os._exit(0)
print(queue.receive(type=9))
queue.send("to a child", type=10)
os.waitpid(child, 0)
print(queue.last_receive_pid == child)

signal.signal(signal.SIGALRM, lambda number, frame: None)
signal.setitimer(signal.ITIMER_REAL, 0.2)
attempt("alarm", queue.receive)
queue.send("after it")
print(queue.receive())

sent = 0
try:
    while True:
        queue.send(b"y" * 100, block=False)
        sent += 1
except sysv_ipc.BusyError as error:
    print("full at", sent, error)
queue.remove()
attempt("removed", lambda: queue.receive(block=False))
many = [sysv_ipc.MessageQueue(None, sysv_ipc.IPC_CREX) for _ in range(100)]
print(len({it.id for it in many}))
for it in many:
    it.remove()
