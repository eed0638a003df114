"""Kills at random: processes send and receive, or reserve and acknowledge, while they, the server and its core are killed again and again. What
tests/storm_account.py tells of their logs is judged: each send that was answered is received once, or is in the file."""
import collections
import json
import mmap
import os
import random
import signal
import subprocess
import time

import frames as f
from serving import PATIENCE, Server, in_child, is_alive, wait_for
from storm_account import Left, Log, kept_account, taken_account

# In all: sends that are answered, processes, kills of the server or its core, and kills of a process between two of these.
MESSAGES, WORKERS, ROUNDS, KILLS = 100_000, 16, 40, 5
# As many requests of a process are under way at most, beside the acknowledgements of what it reserved.
BATCH = 16
# Of what they ask this part is sends: somewhat less than half, so that the queues are seldom full.
SENDS = 0.45
TAKEN, KEPT = 7, 8
MOST_MESSAGES = 1024
# What a request may be answered but its success: there is none, or no room, or the server ends.
USUAL = {f.send: (f.EAGAIN, f.NO_ROOM, f.ENDS), f.receive: (f.ENOMSG, f.ENDS), f.reserve: (f.ENOMSG, f.NO_ROOM, f.ENOSPC, f.ENDS),
         f.acknowledge: (f.ENDS,), f.release: (f.ENDS,)}

Request = collections.namedtuple("Request", "pack words body", defaults=("",))


class Worker:
    """One process, which calls on until it is told to end, by one connection after the other. The odd ones receive, each by a type of its own, from one
    queue; the even ones reserve from the other. Each sends to the others of its kind. It writes down what it asks before it does, and what it is told."""

    def __init__(self, room, path, number, life, sent):
        self.socket, self.storm, self.sent = path + ".socket", room.path("storm"), sent
        self.number, self.life, self.count = number, life, 0
        self.keeps = number % 2 == 0
        self.rng = random.Random(1000 * number + life)
        self.log = os.open(room.path(f"log.{number}"), os.O_WRONLY | os.O_CREAT | os.O_APPEND)

    def note(self, *lines):
        os.write(self.log, "".join(Log.spelt(it) for it in lines).encode())

    def run(self):
        while os.path.exists(self.storm):
            try:
                with f.Client(self.socket, PATIENCE) as client:
                    self.note("dials")
                    self.call_on(client)
            except OSError:
                time.sleep(0.01)

    def call_on(self, client):
        answer = client.call(f.get, key=KEPT if self.keeps else TAKEN, create=True, mode=0o600)
        in_hand = []
        while answer.code == f.DONE and os.path.exists(self.storm):
            drawn = [self.draw(answer.value) for _ in range(self.rng.randint(1, BATCH))]
            in_hand = self.ask(client, [self.give_up(*it) for it in in_hand] + drawn)

    def draw(self, id):
        if self.rng.random() < SENDS:
            self.count += 1
            to = self.rng.randrange(self.number % 2, WORKERS, 2)
            body = f"{to}.{self.number}.{self.life}.{self.count}"
            return Request(f.send, (id, 1 + to, body.encode(), True), body)
        return Request(f.reserve, (id, 0, True)) if self.keeps else Request(f.receive, (id, 1 + self.number, f.MAX_BODY, True))

    def give_up(self, id, body):
        """Ends a message in hand, or sends it back."""
        return Request(f.acknowledge if self.rng.random() < 0.9 else f.release, (id,), body)

    def ask(self, client, requests):
        """Asks all at once, and gives what is in hand behind the last answer, as holding queues and bodies."""
        first, in_hand = client.number + 1, []
        client.number += len(requests)
        self.note(*(f"asks {number} {it.pack.__name__} {it.body}" for number, it in enumerate(requests, first)))
        client.put(b"".join(it.pack(number, *it.words) for number, it in enumerate(requests, first)))
        for number, it in enumerate(requests, first):
            answer = client.answer()
            if answer.number != number:
                self.note(f"code {answer.code} of request {answer.number} where {number} was asked")
            elif answer.code == f.DONE:
                self.tell(it, answer, in_hand)
            else:
                self.note(f"refused {number}" if answer.code in USUAL[it.pack] else f"code {answer.code} of {it.pack.__name__}")
        return in_hand

    def tell(self, request, answer, in_hand):
        if request.pack is f.send:
            self.note(f"told {answer.number} {int.from_bytes(answer.fields, 'little')}")
            self.sent[self.number] += 1
        elif request.pack in (f.receive, f.reserve):
            message = f.read_message(answer.fields)
            self.note(f"told {answer.number} {message.serial} {message.body.decode()}")
            if request.pack is f.reserve:
                in_hand.append((answer.value, message.body.decode()))
        else:
            self.note(f"told {answer.number}")


class Crowd:
    """All workers, who call while the file `storm` is there. One that is killed is followed by another of its number."""

    def __init__(self, room, path):
        self.room, self.path = room, path
        with open(room.path("storm"), "w"):
            pass
        self.sent = memoryview(mmap.mmap(-1, 8 * WORKERS)).cast("Q")
        self.lives = [0] * WORKERS
        self.children = [self.begin(number) for number in range(WORKERS)]

    def begin(self, number):
        self.lives[number] += 1
        return in_child(Worker(self.room, self.path, number, self.lives[number], self.sent).run)

    def kill(self, number):
        os.kill(self.children[number], signal.SIGKILL)
        os.waitpid(self.children[number], 0)
        self.children[number] = self.begin(number)

    def end(self):
        """Each one's status, once it has ended by itself."""
        os.unlink(self.room.path("storm"))
        return [os.waitpid(it, 0)[1] for it in self.children]


def rage(rng, crowd, server):
    """Lets a server live for some thousand messages, kills some of its clients meanwhile, and then it, its core, or both."""
    start = sum(crowd.sent)
    goal = start + rng.randrange(2 * MESSAGES // ROUNDS)
    kills = sorted(rng.randint(start, goal) for _ in range(KILLS))
    end = time.monotonic() + PATIENCE
    while (kills or sum(crowd.sent) < goal) and time.monotonic() < end:
        while kills and kills[0] <= sum(crowd.sent):
            crowd.kill(rng.randrange(WORKERS))
            kills.pop(0)
        time.sleep(rng.uniform(0, 0.005))
    core = server.core()
    for it in rng.choice([(core,), (server.process.pid,), (server.process.pid, core), (core, server.process.pid)]):
        os.kill(it, signal.SIGKILL)
    server.wait()
    wait_for(lambda: not is_alive(core))


def storm(room, path):
    rng, crowd, rounds = random.Random(65), Crowd(room, path), 0
    end = time.monotonic() + 10 * PATIENCE
    while (sum(crowd.sent) < MESSAGES or rounds < ROUNDS) and time.monotonic() < end:
        rage(rng, crowd, Server(room, path))
        rounds += 1
    last = Server(room, path)
    time.sleep(0.5)
    room.judge("storm: all workers end", [0] * WORKERS, crowd.end())
    room.judge("storm: its last server ends", (0, ""), (last.end(), last.said()))
    room.judge("storm: so many sends were answered", True, sum(crowd.sent) >= MESSAGES)
    print(f"storm: {sum(crowd.sent)} sends were answered; killed: {rounds} servers or their cores, and {sum(crowd.lives) - WORKERS} of their clients")


def asked(room, path):
    """What the file has in the queues of the keys 7 and 8, and what else, as a server tells it."""
    server = Server(room, path)
    with server.client() as client:
        found, id = {TAKEN: [], KEPT: [], None: []}, 0
        while (answer := client.call(f.next_above, id)).code == f.DONE:
            id = answer.value
            info = f.read_stat(client.call(f.stat, id).fields)
            while (answer := client.call(f.receive, id, nowait=True)).code == f.DONE:
                it = f.read_message(answer.fields)
                found[info.key if info.has_key else None].append(Left(it.serial, it.type, it.body.decode()))
    room.judge("storm: the server that reads the file", 0, server.end())
    return found


def listed(room, path):
    """The same, as the program tells it, which is no server."""
    def run(*words):
        return subprocess.run([room.program, *words], stdout=subprocess.PIPE, text=True).stdout

    room.judge("storm: the file is right", "ok ", run("check", path)[:3])
    found = {TAKEN: [], KEPT: [], None: []}
    for it in json.loads(run("list", path, "--json"))["queues"]:
        messages = json.loads(run("list", path, f"@{it['id']}", "--json"))["messages"]
        found[it["key"]] += [Left(it["serial"], it["mtype"], it["mtext"]) for it in messages]
    return found


def rows(room):
    path = room.file()
    storm(room, path)
    left = asked(room, path) if room.is_fake else listed(room, path)
    # A message in hand stands in a queue of its own, behind the note of where it is from, and is sent back where there is room.
    in_hand = [it for it in left[None] if it.serial == 2]
    room.judge("storm: nothing is in hand where its queue has room", True, not in_hand or len(left[KEPT]) == MOST_MESSAGES)
    taken, kept = ({number: Log(room.path(f"log.{number}")) for number in range(first, WORKERS, 2)} for first in (1, 0))
    for name, found in (("received", taken_account(taken, left[TAKEN])), ("reserved", kept_account(kept, left[KEPT] + in_hand))):
        for what, wrong in found.items():
            room.judge(f"storm, {name}: {what}", [], wrong[:10])
    lost, perhaps = (sum(getattr(it, what) for it in taken.values()) for what in ("lost", "perhaps"))
    print(f"storm: of who was killed, or whose server was, {lost} receives and {perhaps} sends were under way")
