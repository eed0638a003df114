"""A file of message queues in plain Python, typed from docs/FORMAT.md and docs/FAULTS.md: it is made of a system, and checked."""
import hashlib
from dataclasses import dataclass, field

PAGE, PAYLOAD, FIELDS, ROOM = 4096, 4064, 16, 4048
MOST = 65536
HEADER, DIRECTORY, BUCKET, TOMBSTONE, FREE = 1, 2, 3, 4, 5
COUNTER, KEY, QUEUE, TYPE, MESSAGE = 1, 2, 3, 4, 5
POSITIONS = 2**32

# The fields of a Queue's value behind its flag and key, and of the other values: name and bytes.
QUEUE_FIELDS = [("qbytes", 4), ("cbytes", 4), ("qnum", 4), ("lspid", 4), ("lrpid", 4), ("stime", 8), ("rtime", 8), ("ctime", 8),
                ("next_serial", 8), ("first", 8), ("last", 8), ("lowest", 8), ("uid", 4), ("gid", 4), ("cuid", 4), ("cgid", 4), ("mode", 2)]
WIDTHS = {COUNTER: [4, 4], KEY: [4], QUEUE: [1, 4] + [width for _, width in QUEUE_FIELDS], TYPE: [8, 8, 8, 8], MESSAGE: [8, 4, 8, 8, 8]}


@dataclass(frozen=True)
class Layout:
    """Where the versions of the format differ: byte 1 of the header, the root's page, the greatest depth, the bytes of a Queue's value."""
    version: int
    root: int
    deepest: int
    queue_bytes: int


TODAY, OLDER = Layout(2, 257, 17, 99), Layout(1, 33, 14, 81)
# What a Queue of version 1 lacks at its end: owner, creator and their groups are 0, and the mode is 666.
NO_OWNERS = bytes(16) + b"\1\xb6"


class Wrong(Exception):
    """A file is wrong; its argument is the number of the fault."""


@dataclass
class Message:
    serial: int
    mtype: int
    sender: int
    body: bytes


@dataclass
class Queue:
    """What a queue is but for its messages: the fields that follow from them are not kept."""
    id: int
    key: object
    kept: dict
    messages: list = field(default_factory=list)


@dataclass
class System:
    next_id: int
    queues: list


def number(data, at, width):
    return int.from_bytes(data[at:at + width], "big")


def key_bytes(key):
    kind, queue, which = key
    return bytes([kind]) + queue.to_bytes(4, "big") + which.to_bytes(8, "big")


def pseudokey(key):
    return number(hashlib.sha256(key_bytes(key)).digest(), 0, 4)


def seal(page, payload):
    return bytes(payload) + hashlib.sha256(page.to_bytes(4, "big") + payload).digest()


def joined(widths, numbers):
    return b"".join(value.to_bytes(width, "big") for value, width in zip(numbers, widths))


def split(value, widths):
    """The numbers of a value's fields."""
    numbers, at = [], 0
    for width in widths:
        numbers.append(number(value, at, width))
        at += width
    return numbers


def next_to(items, place):
    return items[place] if 0 <= place < len(items) else 0


def records_of(system):
    """The records that a system has, by key."""
    records = {(COUNTER, 0, 0): joined([4, 4], [system.next_id, len(system.queues)])}
    for queue in system.queues:
        serials = [message.serial for message in queue.messages]
        types = sorted({message.mtype for message in queue.messages})
        told = dict(queue.kept, cbytes=sum(len(message.body) for message in queue.messages), qnum=len(serials),
                    first=next_to(serials, 0), last=next_to(serials, len(serials) - 1), lowest=next_to(types, 0))
        flag = [0, 0] if queue.key is None else [1, queue.key]
        records[QUEUE, queue.id, 0] = joined(WIDTHS[QUEUE], flag + [told[name] for name, _ in QUEUE_FIELDS])
        if queue.key is not None:
            records[KEY, 0, queue.key] = joined([4], [queue.id])
        for place, mtype in enumerate(types):
            of_type = [message.serial for message in queue.messages if message.mtype == mtype]
            neighbours = [next_to(types, place - 1), next_to(types, place + 1)]
            records[TYPE, queue.id, mtype] = joined(WIDTHS[TYPE], [of_type[0], of_type[-1]] + neighbours)
        for place, message in enumerate(queue.messages):
            later = [other.serial for other in queue.messages[place + 1:] if other.mtype == message.mtype]
            links = [next_to(serials, place - 1), next_to(serials, place + 1), next_to(later, 0)]
            records[MESSAGE, queue.id, message.serial] = joined(WIDTHS[MESSAGE], [message.mtype, message.sender] + links) + message.body
    return records


def older_records(records):
    """The same records as a file of version 1 has them."""
    return {key: value[:OLDER.queue_bytes] if key[0] == QUEUE else value for key, value in records.items()}


# ---- a file is made


def bucket_payload(depth, pattern, following, records):
    body = b"".join(len(value).to_bytes(2, "big") + key_bytes(key) + value for key, value in sorted(records.items()))
    head = bytes([BUCKET, depth]) + joined([2, 4, 4, 2, 2], [len(records), pattern, following, len(body), 0])
    return (head + body).ljust(PAYLOAD, b"\0")


def halves(rng, depth, pattern, records, ease):
    """Buckets in the order of the chain; some are split although they need not be."""
    size = sum(15 + len(value) for value in records.values())
    if size <= ROOM and (depth >= 6 or rng.random() > ease):
        return [(depth, pattern, records)]
    upper = {key: value for key, value in records.items() if pseudokey(key) >> depth & 1}
    lower = {key: value for key, value in records.items() if key not in upper}
    return halves(rng, depth + 1, pattern, lower, ease) + halves(rng, depth + 1, pattern + 2**depth, upper, ease)


def payloads_of(rng, records, spare, layout=TODAY):
    """The payloads of a right file with these records. Its buckets and free pages lie anywhere."""
    buckets = halves(rng, 0, 0, records, rng.choice([0.0, 0.3, 0.7]))
    rest = list(range(layout.root + 1, layout.root + len(buckets) + spare))
    rng.shuffle(rest)
    return payloads_on([layout.root] + rest, buckets, layout)


def payloads_on(places, buckets, layout=TODAY):
    """The payloads of a file whose buckets have the first of these pages, in the order of the chain; the others are free."""
    pages = layout.root + len(places)
    chain, free = places[:len(buckets)], places[len(buckets):]
    depth = max(bucket[0] for bucket in buckets)
    counts = [sum(bucket[0] == local for bucket in buckets) for local in range(layout.deepest + 1)]
    numbers = [pages, next_to(free, 0)] + counts
    header = bytes([HEADER, layout.version, depth, 0]) + b"MSGQFILE" + joined([4] * len(numbers), numbers)
    payloads = {0: header.ljust(PAYLOAD, b"\0")}
    entries = [0] * 2**layout.deepest
    for (local, pattern, _), page in zip(buckets, chain):
        for entry in range(pattern, 2**depth, 2**local):
            entries[entry] = page
    for page in range(1, layout.root):
        listed = joined([4] * 512, entries[512 * (page - 1):512 * page])
        payloads[page] = (bytes([DIRECTORY]).ljust(FIELDS, b"\0") + listed).ljust(PAYLOAD, b"\0")
    for place, (local, pattern, held) in enumerate(buckets):
        payloads[chain[place]] = bucket_payload(local, pattern, next_to(chain, place + 1), held)
    for place, page in enumerate(free):
        payloads[page] = (bytes([FREE, 0, 0, 0]) + joined([4], [next_to(free, place + 1)])).ljust(PAYLOAD, b"\0")
    return payloads


# ---- a file is checked


def records_in(payload, layout=TODAY):
    """The records of a bucket's payload, by key, or 40."""
    many, size = number(payload, 2, 2), number(payload, 12, 2)
    if payload[1] > layout.deepest or number(payload, 4, 4) >= 2**payload[1] or size > ROOM:
        raise Wrong(40)
    records, at, last = {}, FIELDS, b""
    for _ in range(many):
        if at + 15 > FIELDS + size:
            raise Wrong(40)
        behind = at + 15 + number(payload, at, 2)
        if behind > FIELDS + size or payload[at + 2:at + 15] <= last:
            raise Wrong(40)
        last = payload[at + 2:at + 15]
        records[last[0], number(last, 1, 4), number(last, 5, 8)] = payload[at + 15:behind]
        at = behind
    if at != FIELDS + size or any(payload[14:16]) or any(payload[at:]):
        raise Wrong(40)
    return records


def read_pages(data, layout):
    """The payloads of a file whose pages are each right, and the records of its buckets."""
    if len(data) % PAGE or not data:
        raise Wrong(22)
    pages = [data[at:at + PAGE] for at in range(0, len(data), PAGE)]
    header = pages[0][:PAYLOAD]
    if pages[0] != seal(0, header):
        raise Wrong(21)
    if header[0] != HEADER or header[4:12] != b"MSGQFILE":
        raise Wrong(41)
    if header[1] != layout.version:
        raise Wrong(42)
    said = number(header, 12, 4)
    if header[2] > layout.deepest or not layout.root < said <= MOST or header[3] or any(header[20 + 4 * (layout.deepest + 1):]):
        raise Wrong(41)
    if said != len(pages):
        raise Wrong(22 if said > len(pages) else 41)
    buckets = {}
    for page, whole in enumerate(pages[1:], 1):
        payload = whole[:PAYLOAD]
        if whole != seal(page, payload):
            raise Wrong(21)
        kinds, fields = ((DIRECTORY,), 1) if page < layout.root else ((BUCKET, TOMBSTONE, FREE), 4)
        if payload[0] not in kinds:
            raise Wrong(40)
        if payload[0] == BUCKET:
            buckets[page] = records_in(payload, layout)
        elif payload[0] == DIRECTORY and (any(payload[1:FIELDS]) or any(payload[2064:])):
            raise Wrong(40)
        elif payload[0] in (TOMBSTONE, FREE) and (any(payload[1:fields]) or any(payload[8:])):
            raise Wrong(40)
    return [page[:PAYLOAD] for page in pages], buckets


def chain_of(payloads, buckets, layout):
    """The buckets' pages in the order of the chain, or 70."""
    chain, page, begin = [], layout.root, 0
    while page or not chain:
        if page not in buckets:
            raise Wrong(70)
        depth, pattern = payloads[page][1], number(payloads[page], 4, 4)
        if int(f"{pattern:032b}"[::-1], 2) != begin:
            raise Wrong(70)
        chain.append(page)
        begin += POSITIONS >> depth
        page = number(payloads[page], 8, 4)
    if begin != POSITIONS:
        raise Wrong(70)
    return chain


def check_structure(payloads, chain, layout):
    header, met = payloads[0], set(chain)
    page = number(header, 16, 4)
    while page:
        if page >= len(payloads) or payloads[page][0] != FREE or page in met:
            raise Wrong(71)
        met.add(page)
        page = number(payloads[page], 4, 4)
    if met != set(range(layout.root, len(payloads))):
        raise Wrong(71)
    depth = header[2]
    locals_ = [payloads[page][1] for page in chain]
    counts = [locals_.count(local) for local in range(layout.deepest + 1)]
    if max(locals_) > depth or counts != split(header[20:], [4] * len(counts)):
        raise Wrong(72)
    for local, page in zip(locals_, chain):
        for entry in range(number(payloads[page], 4, 4), 2**depth, 2**local):
            if number(payloads[1 + entry // 512], FIELDS + 4 * (entry % 512), 4) != page:
                raise Wrong(72)


def is_record(key, value):
    """Whether a record keeps the limits of its kind by itself."""
    kind, queue, which = key
    if kind not in WIDTHS or (len(value) < 36 if kind == MESSAGE else len(value) != sum(WIDTHS[kind])):
        return False
    numbers = split(value, WIDTHS[kind])
    is_id = 1 <= queue <= 4294967294
    is_type = [value_ < 2**63 for value_ in numbers]
    if kind == COUNTER:
        return (queue, which) == (0, 0) and numbers[0] >= 1 and numbers[1] <= 256
    if kind == KEY:
        return queue == 0 and which < 2**32 and 1 <= numbers[0] <= 4294967294
    if kind == QUEUE:
        told = dict(zip([name for name, _ in QUEUE_FIELDS], numbers[2:]))
        return (is_id and which == 0 and numbers[0] <= 1 and (numbers[0] == 1 or numbers[1] == 0)
                and max(told["qbytes"], told["cbytes"]) <= 65536 and told["qnum"] <= 1024 and told["next_serial"] >= 1
                and told["lowest"] < 2**63 and told["mode"] < 512)
    if kind == TYPE:
        return is_id and 1 <= which < 2**63 and min(numbers[:2]) >= 1 and is_type[2] and is_type[3]
    return is_id and which >= 1 and 1 <= numbers[0] < 2**63 and len(value) - 36 <= 1024


def queue_in(records, id_):
    """The queue whose messages its record's links lead to, or 73."""
    flag, key, *rest = split(records[QUEUE, id_, 0], WIDTHS[QUEUE])
    told = dict(zip([name for name, _ in QUEUE_FIELDS], rest))
    queue = Queue(id_, key if flag else None, told)
    serial, last = told["first"], 0
    while serial:
        value = records.get((MESSAGE, id_, serial))
        if value is None or serial <= last or serial >= told["next_serial"] or len(queue.messages) == 1024:
            raise Wrong(73)
        mtype, sender, _, following, _ = split(value, WIDTHS[MESSAGE])
        queue.messages.append(Message(serial, mtype, sender, value[36:]))
        serial, last = following, serial
    if sum(len(message.body) for message in queue.messages) > 65536:
        raise Wrong(73)
    return queue


def system_in(records):
    """The system that has these records and no other, or 73, or 74."""
    if (COUNTER, 0, 0) not in records:
        raise Wrong(73)
    next_id = number(records[COUNTER, 0, 0], 0, 4)
    system = System(next_id, [queue_in(records, key[1]) for key in sorted(records) if key[0] == QUEUE])
    keys = [queue.key for queue in system.queues if queue.key is not None]
    if len(set(keys)) < len(keys) or any(queue.id >= next_id for queue in system.queues) or len(system.queues) > 256:
        raise Wrong(73)
    wanted = records_of(system)
    if any(records.get(key) != value for key, value in wanted.items()):
        raise Wrong(73)
    if len(records) > len(wanted):
        raise Wrong(74)
    return system


def system_of(data, layout=TODAY):
    """The system that a file with these bytes holds, or the first thing that is wrong with it."""
    payloads, buckets = read_pages(data, layout)
    chain = chain_of(payloads, buckets, layout)
    check_structure(payloads, chain, layout)
    records = {}
    for page in chain:
        for key, value in sorted(buckets[page].items()):
            if (pseudokey(key) ^ number(payloads[page], 4, 4)) % 2**payloads[page][1]:
                raise Wrong(74)
            if key[0] == QUEUE and layout == OLDER:
                value = value + NO_OWNERS if len(value) == OLDER.queue_bytes else b""
            if not is_record(key, value):
                raise Wrong(43)
            records[key] = value
    return system_in(records)


def check(data, layout=TODAY, word="ok"):
    """What `msgq check` prints of a file with these bytes, and `msgq migrate` of an older one."""
    try:
        system = system_of(data, layout)
    except Wrong as wrong:
        return f"fault {wrong.args[0]}\n"
    return f"{word} {len(system.queues)} {sum(len(queue.messages) for queue in system.queues)}\n"
