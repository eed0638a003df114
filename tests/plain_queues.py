"""Message queues on plain lists, typed from docs/QUEUES.md: what each call is answered, with the messages in hand of docs/PROTOCOL.md."""
import frames as f

MOST_QUEUES, MOST_MESSAGES, MOST_QBYTES, END_OF_IDS = 256, 1024, 65536, 2**32 - 1


class Refused(Exception):
    """A call that is answered with a code."""

    def __init__(self, code):
        super().__init__(code)
        self.code = code


class Waits(Exception):
    """A call that can't be answered yet."""


class Queue:
    def __init__(self, id, key, caller, mode, now):
        self.id, self.key, self.mode = id, key, mode & 0o777
        self.uid, self.gid = self.cuid, self.cgid = caller[1], caller[2]
        self.qbytes, self.serial, self.messages = 16384, 1, []
        self.lspid = self.lrpid = self.stime = self.rtime = 0
        self.ctime = now
        self.held_of = 0  # of a holding queue, the queue from which its message is

    def cbytes(self):
        return sum(len(it.body) for it in self.messages)

    def allows(self, caller, bit):
        _, user, group = caller
        shift = 6 if user in (self.uid, self.cuid) else 3 if group in (self.gid, self.cgid) else 0
        return user == 0 or self.mode >> shift & bit

    def is_owner(self, caller):
        return caller[1] in (0, self.uid, self.cuid)

    def selected(self, type):
        """The place of the message that a type selects, or None."""
        if type < 0:
            type = min((it.type for it in self.messages if it.type <= -type), default=None)
            if type is None:
                return None
        return next((at for at, it in enumerate(self.messages) if type in (0, it.type)), None)


class System:
    """The queues that are alive, and what each call does to them."""

    def __init__(self):
        self.queues, self.next_id = {}, 1

    def queue(self, id):
        if not 1 <= id < self.next_id:
            raise Refused(f.EINVAL)
        if id not in self.queues:
            raise Refused(f.EIDRM)
        return self.queues[id]

    def make(self, caller, key, mode, now):
        if len(self.queues) == MOST_QUEUES or self.next_id == END_OF_IDS:
            raise Refused(f.ENOSPC)
        made = self.queues[self.next_id] = Queue(self.next_id, key, caller, mode, now)
        self.next_id += 1
        return made

    def get(self, caller, key, flags, mode, now):
        found = next((it.id for it in self.queues.values() if key is not None and it.key == key), None)
        if found is not None:
            if flags & f.CREATE and flags & f.EXCLUSIVE:
                raise Refused(f.EEXIST)
            return found
        if key is not None and not flags & f.CREATE:
            raise Refused(f.ENOENT)
        return self.make(caller, key, mode, now).id

    def send(self, caller, id, type, body, nowait, now):
        if type < 1 or len(body) > f.MAX_BODY:
            raise Refused(f.EINVAL)
        queue = self.queue(id)
        if not queue.allows(caller, 2):
            raise Refused(f.EACCES)
        if queue.cbytes() + len(body) > queue.qbytes or len(queue.messages) == MOST_MESSAGES:
            raise Refused(f.EAGAIN) if nowait else Waits()
        queue.messages.append(f.Message(queue.serial, caller[0], type, body))
        queue.serial += 1
        queue.lspid, queue.stime = caller[0], now
        return queue.serial - 1

    def receive(self, caller, id, type, size, nowait, noerror, now):
        queue = self.queue(id)
        if not queue.allows(caller, 4):
            raise Refused(f.EACCES)
        at = queue.selected(type)
        if at is None:
            raise Refused(f.ENOMSG) if nowait else Waits()
        if len(queue.messages[at].body) > size and not noerror:
            raise Refused(f.E2BIG)
        got = queue.messages.pop(at)
        queue.lrpid, queue.rtime = caller[0], now
        return got._replace(body=got.body[:size])

    def set(self, caller, id, change, now):
        qbytes, user, group, mode = change
        if qbytes > MOST_QBYTES:
            raise Refused(f.EINVAL)
        queue = self.queue(id)
        if not queue.is_owner(caller) or (qbytes > queue.qbytes and caller[1] != 0):
            raise Refused(f.EPERM)
        queue.qbytes, queue.ctime = qbytes, now
        queue.uid = queue.uid if user is None else user
        queue.gid = queue.gid if group is None else group
        queue.mode = queue.mode if mode is None else mode & 0o777

    def remove(self, caller, id):
        if not self.queue(id).is_owner(caller):
            raise Refused(f.EPERM)
        del self.queues[id]

    def reserve(self, caller, id, type, nowait, now):
        source = self.queue(id)
        if not source.allows(caller, 2):
            raise Refused(f.EACCES)
        if len(self.queues) == MOST_QUEUES:
            raise Refused(f.ENOSPC)
        got = self.receive(caller, id, type, f.MAX_BODY, nowait, False, now)
        made = self.make(caller, None, 0o600, now)
        made.held_of = id
        made.messages.append(got)
        made.serial += 1
        return made.id, got

    def holding(self, caller, id):
        queue = self.queues.get(id)
        if queue is None or not queue.held_of:
            raise Refused(f.EINVAL)
        if not queue.is_owner(caller):
            raise Refused(f.EPERM)
        return queue

    def release(self, caller, id):
        queue = self.holding(caller, id)
        self.queue(queue.held_of)
        self.give_back(queue)
        del self.queues[id]

    def give_back(self, queue):
        """Sends what a holding queue has to its queue again, also where there is no room."""
        source = self.queues[queue.held_of]
        for it in queue.messages:
            source.messages.append(it._replace(serial=source.serial))
            source.serial += 1
