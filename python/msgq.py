"""XSI message queues in one file, between the threads of a process, or between any processes where a server has the file.

    with msgq.open("queues") as queues:
        jobs = queues.get(7, create=True)
        jobs.send(b"work", type=2)
        message = jobs.receive(timeout=1.5)

    with msgq.attach("queues") as queues:      # asks its server, where it has one
        with queues.get(7).reserve() as job:
            print(job.body)                    # acknowledged at the end, released where the block raises

What each call is answered stands in docs/QUEUES.md. Calls that wait let other threads of Python run.

Arguments, by one rule. What is no whole number, True and False among them, is a TypeError; a number that does not fit the type of its
argument an OverflowError; one that fits and is none `Invalid`. The types: `id`, `key`, `pages`, `qbytes`, `uid` and `gid` have 32 bits
without a sign, `mode` nine, `size` 64, `type` 64 with a sign; `timeout` is in seconds, 0 to threading.TIMEOUT_MAX, and may have parts
of one. A body is bytes-like, so no int and no str; a path is a str, bytes or path-like, without a zero byte. Flags count by their truth.

Errors: a refusal is the OSError of its number (FileExistsError, InterruptedError, TimeoutError ..); EINVAL is `Invalid`, which is a
ValueError too; a file that is wrong is a `Fault`. A call on a closed file is a ValueError, and one of the child of a fork on its
parent's file an OSError of ENOTSUP.

The end: a file that is open when Python ends, or when nobody refers to it any more, is saved, as Python's own files are, with a
ResourceWarning. Only the process that opened it does so. A process that os._exit or a signal ends saves nothing.

Signals: open, send and receive wait in turns of a fifth of a second, between which the handlers of signals run, so Ctrl-C is heard. Where a
call is done in the turn in which a signal came, it returns what it has, and what the handler raises comes behind it: KeyboardInterrupt
at once, anything else with the thread's next call on the file. At a server a signal ends a turn, so turns are longer there, and who waits
keeps its place among those that wait.

Servers: a handle of a server may be used in the child of a fork. It is never saved at the end. ConnectionResetError where the server was lost
and it is not known whether a call was made; OSError of ENOTCONN where there is no server any more and it was not made.
"""

import _thread
import atexit
import ctypes
import errno
import itertools
import numbers
import operator
import os
import signal
import sys
import threading
import time
import warnings
import weakref
from collections import namedtuple
from ctypes import POINTER, byref, c_char_p, c_int, c_int32, c_int64, c_long, c_size_t, c_uint16, c_uint32, c_uint64, c_void_p

__all__ = ["open", "create", "connect", "attach", "Queues", "Queue", "Reserved", "Message", "Info", "Fault", "Invalid"]
__version__ = "0.2.0"

_PRIVATE = -1
_CREATE, _EXCLUSIVE, _NOWAIT, _NOERROR, _AGAIN = 0o1000, 0o2000, 0o4000, 0o10000, 0o100000
_MAX_BODY = 1024
_WORD, _TYPE, _SIZE, _MODE = (0, 2**32 - 1), (-(2**63), 2**63 - 1), (0, 2**64 - 1), (0, 0o777)
_TURN, _SERVED_TURN, _SOON, _PATIENCE = 0.2, 10, 0.05, 0.5


def _record(**fields):
    return type("record", (ctypes.Structure,), {"_fields_": list(fields.items())})


_Timespec = _record(seconds=c_long, nanoseconds=c_long)
_Message = _record(serial=c_uint64, type=c_int64, length=c_size_t, sender=c_uint32)
_Outgoing = _record(type=c_int64, body=c_char_p, length=c_size_t, serial=c_uint64)
_Info = _record(stime=c_uint64, rtime=c_uint64, ctime=c_uint64, id=c_uint32, key=c_int64, qnum=c_uint32, cbytes=c_uint32, qbytes=c_uint32,
                lspid=c_uint32, lrpid=c_uint32, uid=c_uint32, gid=c_uint32, cuid=c_uint32, cgid=c_uint32, mode=c_uint16)
_Change = _record(qbytes=c_uint32, uid=c_int64, gid=c_int64, mode=c_int32)


def _library():
    """The shared object that MSGQ_LIBRARY names; else the first of one beside this file, one in ../c/out, and the system's."""
    here, system, named = os.path.dirname(os.path.realpath(__file__)), "libmsgq.so", os.environ.get("MSGQ_LIBRARY")
    places = [named] if named else [os.path.join(here, system), os.path.join(os.path.dirname(here), "c", "out", system)]
    place = next(filter(os.path.exists, places), None)
    try:
        if named and not place:
            raise OSError("it is not there")
        return _declared(ctypes.CDLL(place or system))
    except (OSError, AttributeError) as error:
        where = place or named or f"neither {' nor '.join(places)} is there, and of the system's"
        raise ImportError(f"msgq needs libmsgq.so: {where}: {error}. Run c/build, which makes c/out/libmsgq.so, and leave it there, "
                          "put it beside msgq.py, or let MSGQ_LIBRARY name it", name="msgq") from error


def _declared(library):
    one, number, limit = c_void_p, c_uint32, POINTER(_Timespec)
    for name, kinds in {
        "create": [c_char_p, number], "open": [c_char_p, POINTER(one)],
        "open_wait": [c_char_p, limit, POINTER(one)], "get": [one, c_int64, c_int, POINTER(number)],
        "send": [one, number, c_int64, c_char_p, c_size_t, c_int, limit],
        "send_all": [one, number, POINTER(_Outgoing), c_size_t],
        "receive": [one, number, c_int64, c_char_p, c_size_t, c_int, limit, POINTER(_Message)],
        "connect": [c_char_p, POINTER(one)], "attach": [c_char_p, POINTER(one)], "is_served": [one],
        "reserve": [one, number, c_int64, c_char_p, c_size_t, c_int, limit, POINTER(_Message), POINTER(number)],
        "acknowledge": [one, number], "release": [one, number],
        "stat": [one, number, POINTER(_Info)], "set": [one, number, POINTER(_Change)], "list": [one, number, POINTER(number)],
        "remove": [one, number], "save": [one], "note": [one], "stop": [one], "close": [one], "abandon": [one], "last_fault": [],
    }.items():
        getattr(library, "msgq_" + name).argtypes = kinds
    library.msgq_last_fault.restype = ctypes.c_uint
    if hasattr(library, "msgq_reason"):
        library.msgq_reason.restype = c_char_p
    return library


_lib = _library()


class Fault(OSError):
    """Something is wrong with a file (EBADMSG); `fault` is its number in docs/FAULTS.md."""

    fault = 0


class Invalid(OSError, ValueError):
    """An argument that is none (EINVAL)."""


def _must(number, what=None, path=None):
    """Raises what a call was told: in the library's sentence where it has one, else in the system's words."""
    if number == 0:
        return
    fault = _lib.msgq_last_fault()
    said = _lib.msgq_reason() if hasattr(_lib, "msgq_reason") else b""
    text = os.fsdecode(said).removeprefix("" if path is None else f"{os.fsdecode(path)}: ")
    if not said:
        text = "no queue has this key" if what and number == errno.ENOENT else os.strerror(number)
        text = f"{what}: {text}" if what else text
    if fault and f"fault {fault})" not in text:
        text += f" (fault {fault})"
    error = {errno.EBADMSG: Fault, errno.EINVAL: Invalid}.get(number, OSError)(number, text, path)
    error.fault = fault
    raise error


def _number(value, bounds, name):
    if isinstance(value, bool):
        raise TypeError(f"{name} is a number, not {value}")
    number = operator.index(value)
    if not bounds[0] <= number <= bounds[1]:
        raise OverflowError(f"{name} is from {bounds[0]} to {bounds[1]}")
    return number


def _path(path):
    name = os.fsencode(path)
    if b"\0" in name:
        raise Invalid(errno.EINVAL, "a path has no zero byte")
    return name


def _turns(before, timeout, *behind, turn=_TURN):
    """The arguments of a call that waits, for a turn each time, until its timeout has passed."""
    end = None if timeout is None else time.monotonic() + timeout
    while True:
        left = turn if end is None else min(turn, max(0, end - time.monotonic()))
        yield (*before, byref(_Timespec(int(left), int(left % 1 * 1_000_000_000))), *behind)
        # Where a signal ends a turn the last one has no time, so that it is told that the timeout has passed.
        if end is not None and (left == 0 or (turn == _TURN and time.monotonic() >= end)):
            return


def _seconds(timeout):
    if timeout is None:
        return None
    if isinstance(timeout, bool) or not isinstance(timeout, numbers.Real):
        raise TypeError(f"timeout is a number of seconds, not {type(timeout).__name__}")
    if not timeout >= 0:
        raise Invalid(errno.EINVAL, "timeout is 0 or more")
    if timeout > threading.TIMEOUT_MAX:
        raise OverflowError(f"timeout is {threading.TIMEOUT_MAX:.0f} at most")
    return float(timeout)


Message = namedtuple("Message", "body type sender serial")
Info = namedtuple("Info", "id key qnum cbytes qbytes lspid lrpid stime rtime ctime uid gid cuid cgid mode")


def create(path, pages=1000):
    """Makes a file of so many pages of 4,096 bytes, 258 to 65,536, without queues.
    FileExistsError where there is one of this name, Invalid for another number of pages, or what the system says."""
    _must(_lib.msgq_create(_path(path), _number(pages, _WORD, "pages")), path=path)


def open(path, *, wait=False, timeout=None):
    """Opens a file, which is checked whole; with `with` it is saved and closed at the end, or let go as it was saved last, where an
    exception comes. With `wait`, or a `timeout` in seconds, it waits while a process has the file open.
    Fault where something is wrong with it, OSError of EBUSY where a process has it open and it does not wait, TimeoutError, or what the
    system says."""
    return Queues(path, wait=wait, timeout=timeout)


def connect(socket):
    """Connects to a server, by the path of its socket; with `with` it is let go at the end.
    FileNotFoundError or ConnectionRefusedError where nobody serves, or what the system says."""
    return Queues(socket, how="connect")


def attach(path):
    """Connects to the server of a file, where it has one, and opens the file else.
    What `open` raises, or what the system says of the socket."""
    return Queues(path, how="attach")


class Queues:
    """A file of queues that is open, or a server of one."""

    _at = _late = None
    _is_lost = _is_told = is_served = False

    def __init__(self, path, *, wait=False, timeout=None, how="open"):
        self.path, name, timeout = path, _path(path), _seconds(timeout)
        # The threads whose calls are under way: while there are others nobody closes the file. The lock may be taken by a handler
        # of a signal that came upon a call of its own thread.
        self._callers, self._lock = set(), threading.RLock()
        self._process, self._at = os.getpid(), c_void_p()
        if wait or timeout is not None:
            # In turns, so that the handlers of signals run.
            for turn in _turns((name,), timeout, byref(self._at)):
                told = _lib.msgq_open_wait(*turn)
                if told != errno.ETIMEDOUT:
                    break
        else:
            told = getattr(_lib, "msgq_" + how)(name, byref(self._at))
        _must(told, path=path)
        self.is_served = bool(_lib.msgq_is_served(self._at))
        _opened.add(self)

    def __enter__(self):
        return self

    def __exit__(self, kind, error, trace):
        if not self._is_own():
            self._at = None
        elif kind is None:
            self.close()
        elif self._at:
            self._is_lost = True
            try:
                self.abandon()
            except OSError as refusal:
                # Another thread makes a call: the file goes with the process.
                if refusal.errno != errno.EBUSY:
                    raise

    def __del__(self, getpid=os.getpid):
        if self._at and self._process == getpid():
            try:
                self._end(self.close)
            finally:
                if self._at:
                    self.abandon()

    def __iter__(self):
        """The queues that are alive, by ascending ids."""
        found = c_uint32(0)
        while self._call("list", found.value, byref(found), also=errno.ENOENT) == 0:
            yield Queue(self, found.value)

    def _is_own(self):
        return self.is_served or self._process == os.getpid()

    def _must_be_own(self):
        if not self._is_own():
            raise OSError(errno.ENOTSUP, "a file that a parent has opened", self.path)

    def _make(self, told, name, turns):
        """Makes a call once for each turn, until it is told another than that the turn has passed."""
        call, me = getattr(_lib, "msgq_" + name), threading.get_ident()
        self._must_be_own()
        is_first = me not in self._callers
        try:
            with self._lock:
                self._callers.add(me)
            for arguments in turns:
                if not self._at:
                    raise ValueError("the file is closed")
                told.clear()
                # The call and the note of what it was told are one step, within which no handler of a signal runs.
                told += itertools.starmap(call, [(self._at, *arguments)])
                # At a server a signal, whose handler runs here, has ended the turn.
                if told[0] != errno.ETIMEDOUT and not (self.is_served and told[0] == errno.EINTR):
                    break
        finally:
            if is_first:
                self._callers.discard(me)

    def _call(self, name, *arguments, what=None, also=0):
        self._raise_late()
        told = []
        self._make(told, name, [arguments])
        if told[0] != also:
            _must(told[0], what, None if what else self.path)
        return told[0]

    def _let_go(self, name):
        self._must_be_own()
        told = []
        with self._lock:
            # A call that is done leaves soon, and no other begins.
            end = time.monotonic() + _PATIENCE
            while self._callers - {threading.get_ident()}:
                if time.monotonic() > end:
                    raise OSError(errno.EBUSY, "another thread makes a call", self.path)
                time.sleep(0.001)
            try:
                self._make(told, name, [()])
            finally:
                if told == [0]:
                    self._at = None
            _must(told[0], path=self.path)
        self._raise_late()

    def _comes_behind(self, error):
        """Lets what a handler raised upon a call that was done come behind its return."""
        if isinstance(error, KeyboardInterrupt) and threading.current_thread() is threading.main_thread():
            # By a signal once more, which also ends what the thread does next where that is a call of the system.
            again = lambda me: (time.sleep(_SOON), signal.pthread_kill(me, signal.SIGINT))
            _thread.start_new_thread(again, (threading.get_ident(),))
        else:
            self._late = threading.get_ident(), error

    def _raise_late(self):
        if self._late and self._late[0] == threading.get_ident():
            (_, error), self._late = self._late, None
            raise error

    def _end(self, deed):
        """Saves what nobody has closed, unless an exception ended its block."""
        if not self._is_lost:
            try:
                if not self._is_told:
                    self._is_told = True
                    warnings.warn(f"unclosed file of queues {self.path!r}", ResourceWarning, stacklevel=2, source=self)
            finally:
                deed()

    def get(self, key=None, *, create=False, exclusive=False, mode=0o600):
        """The queue of a key, or a new one; without a key a new one that no key leads to.
        FileNotFoundError where no queue has the key and none is made, FileExistsError where one has it and `exclusive` is given with
        `create`, OSError of ENOSPC where no more queues are possible."""
        found, key = c_uint32(), _PRIVATE if key is None else _number(key, _WORD, "key")
        flags = _number(mode, _MODE, "mode") | (_CREATE if create else 0) | (_EXCLUSIVE if exclusive else 0)
        what = "a new queue" if key == _PRIVATE else f"key {key}"
        self._call("get", key, flags, byref(found), what=what)
        return Queue(self, found.value)

    def queue(self, id):
        """The queue of an id, which each of its calls looks for."""
        return Queue(self, id)

    def save(self):
        """Writes what has changed to the file. Where it fails the file is to be opened anew: each further save is told EIO."""
        self._call("save")

    def note(self):
        """Brings what has changed to where it outlasts a crash, as `save` does, but notes the calls in the journal of the file: for one wait
        for the disk in the place of three. Who reads the file sees them once it is saved or closed."""
        self._call("note")

    def stop(self):
        """From here on a call that would wait raises InterruptedError. OSError of ENOTSUP for a server."""
        self._call("stop")

    def close(self):
        """Saves, and lets go of the file; of a server it lets go without. OSError of EBUSY while another thread makes a call, or what `save`
        says; then it stays open."""
        self._let_go("close")

    def abandon(self):
        """Lets go of the file as it was saved last, or noted. OSError of EBUSY while another thread makes a call."""
        self._let_go("abandon")


_opened = weakref.WeakSet()


@atexit.register
def _save_all():
    for queues in list(_opened):
        if queues._at and queues._process == os.getpid() and not queues.is_served:
            try:
                queues._end(queues.save)
            except Exception:
                sys.excepthook(*sys.exc_info())


def _begin_child():
    """The other threads of a parent are none of its child's."""
    for queues in list(_opened):
        queues._callers, queues._lock = set(), threading.RLock()


os.register_at_fork(after_in_child=_begin_child)


class Queue:
    """One queue of a file. Each call is refused Invalid for an id that was never given out, and OSError of EIDRM for a queue that was
    removed."""

    def __init__(self, queues, id):
        self._queues, self.id = queues, _number(id, _WORD, "id")
        self._name = f"queue {self.id}"

    def __repr__(self):
        return f"Queue(id={self.id})"

    def _wait(self, name, turns, result=lambda: None):
        self._queues._raise_late()
        told, late = [], None
        while True:
            try:
                if told != [0]:
                    self._queues._make(told, name, turns)
                    _must(told[0], self._name)
                done = result()
                if late:
                    self._queues._comes_behind(late)
                return done
            except MemoryError:
                raise
            except BaseException as error:
                # Of a call that is done this is what the handler of a signal raised. No call here, upon which one more would come.
                if told != [0]:
                    raise
                late = error

    def _waits(self, before, timeout, *behind):
        return _turns(before, _seconds(timeout), *behind, turn=_SERVED_TURN if self._queues.is_served else _TURN)

    def send(self, body, type=1, *, wait=True, timeout=None, again=False):
        """Puts a message last, of 1,024 bytes at most and a type from 1 on; waits while there is no room, for `timeout` seconds at most.
        Where its server is lost while it waits it is put `again` by the next, and may then stand twice.
        Invalid for another body or type, PermissionError, BlockingIOError where there is no room and it does not wait, TimeoutError,
        InterruptedError, OSError of ENOSPC where the file is full."""
        body = bytes(memoryview(body))
        before = self.id, _number(type, _TYPE, "type"), body, len(body), (0 if wait else _NOWAIT) | (_AGAIN if again else 0)
        self._wait("send", self._waits(before, timeout))

    def send_all(self, bodies, type=1):
        """Puts messages of a type in their order, as `send` does that does not wait, and returns their serials. A server has up to 32 of them at
        once, and saves them together.
        What `send` raises for the first that is refused. The error's `serials` are of all, with 0 for each that was not put: on a file those
        from that one on; at a server one behind it may be put where others fill the queue meanwhile."""
        bodies, kind = [bytes(memoryview(body)) for body in bodies], _number(type, _TYPE, "type")
        all = (_Outgoing * len(bodies))(*[(kind, body, len(body), 0) for body in bodies])
        serials = lambda: [it.serial for it in all]
        try:
            return self._wait("send_all", [(self.id, all, len(all))], serials)
        except OSError as error:
            error.serials = serials()
            raise

    def receive(self, type=0, *, size=_MAX_BODY, cut=False, wait=True, timeout=None, again=False):
        """Takes the first message (type 0), the first of a type, or the first of the lowest type up to -type; waits while there is none,
        for `timeout` seconds at most. Where `cut` says so one of more than `size` bytes is cut. Where its server is lost while it waits it
        is taken `again` of the next, and what the lost one had taken is lost.
        OSError of E2BIG for one that is longer, and of ENOMSG where there is none and it does not wait; PermissionError, TimeoutError,
        InterruptedError."""
        room, got = ctypes.create_string_buffer(_MAX_BODY), _Message()
        # The library is told of no more bytes than there is room for. No body has more.
        size = min(_number(size, _SIZE, "size"), _MAX_BODY)
        flags = (0 if wait else _NOWAIT) | (_NOERROR if cut else 0) | (_AGAIN if again else 0)
        before = self.id, _number(type, _TYPE, "type"), room, size, flags
        message = lambda: Message(room.raw[:got.length], got.type, got.sender, got.serial)
        return self._wait("receive", self._waits(before, timeout, byref(got)), message)

    def reserve(self, type=0, *, wait=True, timeout=None):
        """Takes a message as `receive` does, which its server holds until it is dealt with; with `with` it is acknowledged at the end, or
        released where the block raises. It is released too where this thread ends, its process or the server.
        OSError of ENOTSUP for a file that is opened, and what `receive` raises."""
        room, got, holding = ctypes.create_string_buffer(_MAX_BODY), _Message(), c_uint32()
        before = self.id, _number(type, _TYPE, "type"), room, _MAX_BODY, 0 if wait else _NOWAIT
        message = lambda: Message(room.raw[:got.length], got.type, got.sender, got.serial)
        turns = self._waits(before, timeout, byref(got), byref(holding))
        return self._wait("reserve", turns, lambda: Reserved(self._queues, holding.value, message()))

    def __iter__(self):
        """Takes the messages that stand on the queue, until there is none."""
        while True:
            try:
                message = self.receive(wait=False)
            except OSError as error:
                if error.errno != errno.ENOMSG:
                    raise
                return
            yield message

    def stat(self):
        """What is known of the queue. PermissionError where its mode does not let the caller read."""
        info = _Info()
        self._queues._call("stat", self.id, byref(info), what=self._name)
        known = {name: getattr(info, name) for name in Info._fields}
        known["key"] = None if info.key == _PRIVATE else info.key
        return Info(**known)

    def set(self, qbytes=None, *, uid=None, gid=None, mode=None):
        """Changes what is given. Invalid for `qbytes` above 65,536; PermissionError for who is neither owner, creator nor user 0, and for
        who raises `qbytes` and is not user 0. Without `qbytes` the mode has to let the caller read, as `stat` does."""
        given = ((uid, _WORD, "uid"), (gid, _WORD, "gid"), (mode, _MODE, "mode"))
        others = [-1 if one[0] is None else _number(*one) for one in given]
        change = _Change(0 if qbytes is None else _number(qbytes, _WORD, "qbytes"), *others)
        if qbytes is None:
            change.qbytes = self.stat().qbytes
        self._queues._call("set", self.id, byref(change), what=self._name)

    def remove(self):
        """Removes the queue and all its messages. PermissionError for who is neither owner, creator nor user 0."""
        self._queues._call("remove", self.id, what=self._name)


class Reserved:
    """A message that a server holds, with its `body`, `type`, `sender` and `serial`, and the `id` of the queue that holds it."""

    def __init__(self, queues, id, message):
        self._queues, self.id, self.message, self._is_held = queues, id, message, True
        self.body, self.type, self.sender, self.serial = message

    def __repr__(self):
        return f"Reserved(id={self.id}, message={self.message})"

    def __enter__(self):
        return self

    def __exit__(self, kind, error, trace):
        if self._is_held:
            self.acknowledge() if kind is None else self.release()

    def _settle(self, name):
        self._queues._call(name, self.id, what=f"queue {self.id}")
        self._is_held = False

    def acknowledge(self):
        """It is dealt with. Invalid where it is held no longer."""
        self._settle("acknowledge")

    def release(self):
        """It is sent to its queue again, last. Invalid where it is held no longer."""
        self._settle("release")
