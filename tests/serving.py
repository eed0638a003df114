"""Servers for tests: a front as it is installed, started on files of a temporary folder, and what is counted."""
import os
import shutil
import signal
import subprocess
import sys
import tempfile
import time

import frames as f

TOP = os.path.dirname(os.path.dirname(os.path.realpath(__file__)))
# How long anything may take, in seconds: other work may keep the machine busy.
PATIENCE = 60

# What a shell begins in the background ignores INT, and so would each server that it begins.
signal.signal(signal.SIGINT, signal.default_int_handler)


class Room:
    """A temporary folder, in which all of a test stands; its servers are ended with it."""

    def __init__(self, program, core, front):
        self.folder = tempfile.mkdtemp()
        os.chmod(self.folder, 0o755)
        self.program, self.core, self.front = program, core, front
        # what it saves no program reads
        self.is_fake = os.path.basename(core) == "fake_core"
        self.servers, self.count = [], 0
        self.usual = self.root("usual", core)
        self.passed = self.failed = 0

    def root(self, name, core, front=None):
        """A front as it is installed, over this core."""
        root = f"{self.folder}/{name}"
        os.makedirs(root + "/bin")
        os.makedirs(root + "/libexec/msgq")
        shutil.copy(front or self.front, root + "/bin/msgq")
        os.symlink(self.program, root + "/libexec/msgq/msgq")
        os.symlink(core, root + "/libexec/msgq/msgqd")
        return root + "/bin/msgq"

    def path(self, name):
        return f"{self.folder}/{name}"

    def file(self):
        """A new file of queues."""
        self.count += 1
        path = self.path(f"q{self.count}")
        subprocess.run([self.program, "new", path, "600"], stdout=subprocess.DEVNULL, check=True)
        return path

    def judge(self, name, wanted, came):
        if wanted == came:
            self.passed += 1
        else:
            self.failed += 1
            print(f"server, {name}: wanted {wanted!r}, and this came: {came!r}", flush=True)

    def end(self):
        for it in self.servers:
            it.kill()
        shutil.rmtree(self.folder)


class Server:
    """`msgq serve`, of which what it says stands in a file."""

    def __init__(self, room, path, *words, front=None, is_ready=True, environment=None, **how):
        self.path, self.socket = path, path + ".socket"
        self.errors = tempfile.TemporaryFile("w+")
        self.is_plain = front is None
        self.process = subprocess.Popen([front or room.usual, "serve", path, *words], stdin=subprocess.DEVNULL, stdout=subprocess.PIPE,
                                        stderr=self.errors, env={**os.environ, **(environment or {})}, text=True, **how)
        room.servers.append(self)
        self.ready = self.process.stdout.readline() if is_ready else ""

    def client(self, patience=PATIENCE):
        return f.Client(self.socket, patience)

    def core(self):
        """The process of its core."""
        with open(f"/proc/{self.process.pid}/task/{self.process.pid}/children") as file:
            return int(file.read().split()[0])

    def said(self):
        self.errors.seek(0)
        return self.errors.read()

    def wait(self):
        """Its status, once it has ended."""
        status = self.process.wait(PATIENCE)
        self.process.stdout.close()
        return status

    def end(self, number=signal.SIGTERM):
        self.process.send_signal(number)
        return self.wait()

    def kill(self):
        """Ends it and its core without a word, where they are there."""
        if self.process.poll() is None:
            core = self.core()
            os.kill(core, signal.SIGKILL)
            self.process.kill()
            self.wait()
            wait_for(lambda: not is_alive(core))


def is_alive(process):
    try:
        with open(f"/proc/{process}/stat") as file:
            return file.read().rsplit(")", 1)[1].split()[0] != "Z"
    except OSError:
        return False


def wait_for(test, patience=PATIENCE):
    """Whether something comes to hold in time."""
    end = time.monotonic() + patience
    while not test():
        if time.monotonic() > end:
            return False
        time.sleep(0.01)
    return True


def make_queue(client, key=7, mode=0o600):
    return client.call(f.get, key=key, create=True, mode=mode).value


def bodies_of(client, id):
    """Takes all messages of a queue, and tells their bodies."""
    found = []
    while True:
        answer = client.call(f.receive, id, nowait=True)
        if answer.code != f.DONE:
            return found
        found.append(f.read_message(answer.fields).body)


def hangs_up(client):
    """Whether the server has nothing to say but its end."""
    try:
        return client.socket.recv(1) == b""
    except ConnectionError:
        return True


def in_child(act):
    """Does something in a child of this process, whose number is told. It ends with status 0 where that went well."""
    child = os.fork()
    if child == 0:
        status = 1
        try:
            act()
            status = 0
        except BaseException as wrong:
            print("tests/server: a child:", wrong, file=sys.stderr)
        os._exit(status)
    return child
