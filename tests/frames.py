"""Frames of docs/PROTOCOL.md in plain Python, typed from that page: what a client sends and gets, and what goes between relay and core."""
import collections
import socket
import struct

VERSION = 1
MAX_BODY = 1024

GET, SEND, RECEIVE, STAT, SET, REMOVE, NEXT, NTH, SAVE, INFO, CANCEL, RESERVE, ACKNOWLEDGE, RELEASE = range(1, 15)
# Those that the relay answers by itself.
COUNTS, FOLLOW = 32, 33
A_MESSAGE, UNTOLD = 1, 2

# What is counted.
(BEGAN, CALLS, REFUSALS, CLIENTS, CAME, TURNED_AWAY, WAITS, WERE_SENT, WERE_RECEIVED, GROUPS, TIME_OF_GROUPS, FOLLOWERS,
 WERE_UNTOLD) = range(1, 14)

NOWAIT, NOERROR, CREATE, EXCLUSIVE, HAS_KEY, HAS_USER, HAS_GROUP, HAS_MODE = (1 << bit for bit in range(8))

# The flags that each operation may have.
FLAGS = {GET: CREATE | EXCLUSIVE | HAS_KEY, SEND: NOWAIT, RECEIVE: NOWAIT | NOERROR, SET: HAS_USER | HAS_GROUP | HAS_MODE, RESERVE: NOWAIT}

DONE, E2BIG, EAGAIN, EEXIST, EIDRM, EINTR, EINVAL, ENOENT, ENOMSG, ENOSPC, EACCES, EPERM = range(12)
NO_ROOM, NO_MEMORY, FAILED = 50, 60, 62
CANCELLED, ENDS, WRONG_FRAME = 200, 201, 203

DURABLE, EVERY, IN_MEMORY = range(3)

# Kinds of what the relay tells the core.
REQUEST, GONE, SAVE_NOW, END = range(4)

Greeting = collections.namedtuple("Greeting", "version mode instance most_bytes")
Answer = collections.namedtuple("Answer", "number code value fields")
Message = collections.namedtuple("Message", "serial sender type body")
Stat = collections.namedtuple("Stat", "stime rtime ctime id key qnum cbytes qbytes lspid lrpid uid gid cuid cgid mode has_key")
Info = collections.namedtuple("Info", "calls saves tries queues waiting pages highest")
Event = collections.namedtuple("Event", "serial sender length type start")
Record = collections.namedtuple("Record", "connection kind pid uid gid request")

STAT_FORM, INFO_FORM, MESSAGE_FORM = "<3Q11I2H", "<3Q4I", "<QIIq"


def frame(body):
    return struct.pack("<I", len(body)) + body


def split(data):
    """The bodies of the whole frames that bytes begin with, and what is left."""
    bodies, at = [], 0
    while len(data) - at >= 4:
        end = at + 4 + struct.unpack_from("<I", data, at)[0]
        if end > len(data):
            break
        bodies.append(data[at + 4:end])
        at = end
    return bodies, data[at:]


# ---- what a client sends


def request(number, operation, flags=0, mode=0, id=0, fields=b""):
    return frame(struct.pack("<IBBHI", number, operation, flags, mode, id) + fields)


def get(number, key=None, create=False, exclusive=False, mode=0):
    flags = (CREATE if create else 0) | (EXCLUSIVE if exclusive else 0) | (HAS_KEY if key is not None else 0)
    return request(number, GET, flags, mode, 0, struct.pack("<I", key or 0))


def send(number, id, type, body, nowait=False):
    return request(number, SEND, NOWAIT if nowait else 0, 0, id, struct.pack("<q", type) + body)


def receive(number, id, type=0, size=MAX_BODY, nowait=False, noerror=False):
    flags = (NOWAIT if nowait else 0) | (NOERROR if noerror else 0)
    return request(number, RECEIVE, flags, 0, id, struct.pack("<qI", type, size))


def stat(number, id):
    return request(number, STAT, id=id)


def set(number, id, qbytes, user=None, group=None, mode=None):
    given = ((user, HAS_USER), (group, HAS_GROUP), (mode, HAS_MODE))
    flags = sum(flag for value, flag in given if value is not None)
    return request(number, SET, flags, mode or 0, id, struct.pack("<III", qbytes, user or 0, group or 0))


def remove(number, id):
    return request(number, REMOVE, id=id)


def next_above(number, id):
    return request(number, NEXT, id=id)


def nth(number, place):
    return request(number, NTH, id=place)


def save(number):
    return request(number, SAVE)


def info(number):
    return request(number, INFO)


def cancel(number, of):
    return request(number, CANCEL, id=of)


def reserve(number, id, type=0, nowait=False):
    return request(number, RESERVE, NOWAIT if nowait else 0, 0, id, struct.pack("<q", type))


def acknowledge(number, id):
    return request(number, ACKNOWLEDGE, id=id)


def release(number, id):
    return request(number, RELEASE, id=id)


def counts(number):
    return request(number, COUNTS)


def follow(number, id):
    return request(number, FOLLOW, id=id)


# ---- what a client gets


def read_greeting(body):
    number, code, version, mode, instance, most, zero = struct.unpack("<IIIIQII", body)
    assert number == code == zero == 0
    return Greeting(version, mode, instance, most)


def read_answer(body):
    number, code, value = struct.unpack_from("<III", body)
    return Answer(number, code, value, body[12:])


def read_message(fields):
    serial, sender, zero, type = struct.unpack_from(MESSAGE_FORM, fields)
    assert zero == 0
    return Message(serial, sender, type, fields[24:])


def read_stat(fields):
    return Stat(*struct.unpack(STAT_FORM, fields))


def read_info(fields):
    return Info(*struct.unpack(INFO_FORM, fields))


def read_counts(fields):
    """Values by kind and label."""
    return {(kind, label): value for kind, label, value in struct.iter_unpack("<IIQ", fields)}


def read_event(fields):
    return Event(*struct.unpack_from("<QIIq", fields), fields[24:])


class Client:
    """A connection, with calls that are asked and answered one after the other; others may be put between them by hand."""

    def __init__(self, path, patience=20):
        self.socket = socket.socket(socket.AF_UNIX, socket.SOCK_STREAM)
        self.socket.settimeout(patience)
        self.left = b""
        self.number = 0
        try:
            self.socket.connect(path)
            self.greeting = read_greeting(self.read_frame())
        except BaseException:
            self.socket.close()
            raise

    def __enter__(self):
        return self

    def __exit__(self, *_):
        self.close()

    def close(self):
        self.socket.close()

    def put(self, data):
        self.socket.sendall(data)

    def read_frame(self):
        """The body of the next frame; ConnectionError where the connection has ended."""
        while True:
            if len(self.left) >= 4:
                end = 4 + struct.unpack_from("<I", self.left)[0]
                if len(self.left) >= end:
                    body, self.left = self.left[4:end], self.left[end:]
                    return body
            more = self.socket.recv(65536)
            if not more:
                raise ConnectionError("the server has hung up")
            self.left += more

    def answer(self):
        return read_answer(self.read_frame())

    def call(self, pack, *words, **options):
        """Asks what a function above packs, and gives the answer."""
        self.number += 1
        self.put(pack(self.number, *words, **options))
        answer = self.answer()
        assert answer.number == self.number, f"an answer to {answer.number} where {self.number} was asked"
        return answer


# ---- between relay and core


def record(connection, kind, caller=(0, 0, 0), request=b""):
    """Of kind REQUEST the request is its frame, whose length is left out."""
    return frame(struct.pack("<IIIII", connection, kind, *caller) + request[4:])


def read_record(body):
    return Record(*struct.unpack_from("<5I", body), body[20:])


def core_answer(connection, number, code, value=0, fields=b""):
    return frame(struct.pack("<IIII", connection, number, code, value) + (fields if code == DONE else b""))


def read_core_answer(body):
    return struct.unpack_from("<I", body)[0], read_answer(body[4:])
