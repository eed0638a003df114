"""What `msgq salvage` makes of a file, in plain Python, typed from docs/SCRIPTS.md ("What is salvaged")."""
from plain_file import (BUCKET, COUNTER, DIRECTORY, FIELDS, FREE, HEADER, KEY, MESSAGE, MOST, PAGE, PAYLOAD, QUEUE, QUEUE_FIELDS, ROOM, TODAY,
                        TOMBSTONE, WIDTHS, Message, Queue, System, Wrong, is_record, number, seal, split)

MADE = {name: 0 for name, _ in QUEUE_FIELDS} | {"qbytes": 16384, "next_serial": 1, "mode": 0o600}


def header_pages(payload):
    """How many pages a header says that its file has, 0 where it is none, or 42."""
    if payload[0] != HEADER or payload[4:12] != b"MSGQFILE":
        return 0
    if payload[1] != TODAY.version:
        raise Wrong(42)
    pages = number(payload, 12, 4)
    is_right = payload[2] <= TODAY.deepest and TODAY.root < pages <= MOST and not payload[3] and not any(payload[92:])
    return pages if is_right else 0


def records_on(payload):
    """The records of a bucket in the order in which they stand, or none where they don't fill their bytes."""
    many, size = number(payload, 2, 2), number(payload, 12, 2)
    if payload[0] != BUCKET or payload[1] > TODAY.deepest or size > ROOM:
        return None
    records, at = [], FIELDS
    for _ in range(many):
        if at + 15 > FIELDS + size:
            return None
        behind = at + 15 + number(payload, at, 2)
        if behind > FIELDS + size:
            return None
        key = payload[at + 2], number(payload, at + 3, 4), number(payload, at + 7, 8)
        records.append((key, payload[at + 15:behind]))
        at = behind
    return records if at == FIELDS + size else None


def is_other_page(payload):
    if payload[0] == DIRECTORY:
        return not any(payload[1:FIELDS]) and not any(payload[2064:])
    return payload[0] in (TOMBSTONE, FREE) and not any(payload[1:4]) and not any(payload[8:])


def read(data):
    """The records that can be read, each with its key, in order; and the pages that can't."""
    records, unread, said = [], [], 0
    pages = [data[at:at + PAGE] for at in range(0, len(data) - PAGE + 1, PAGE)][:MOST]
    for page, whole in enumerate(pages):
        payload = whole[:PAYLOAD]
        if whole != seal(page, payload):
            unread.append(page)
        elif page == 0:
            said = header_pages(payload)
            if not said:
                unread.append(page)
        else:
            found = records_on(payload)
            if found is None and not is_other_page(payload):
                unread.append(page)
            records += found or []
    if len(unread) == len(pages):
        raise Wrong(21 if pages else 22)
    return records, unread + list(range(len(pages), said))


def queues_in(records):
    """A queue for each id, and the keys that Keys give them."""
    entries, messages, keys = {}, {}, {}
    for (kind, id_, which), value in records:
        if kind == QUEUE:
            flag, key, *rest = split(value, WIDTHS[QUEUE])
            entries.setdefault(id_, Queue(id_, key if flag else None, dict(zip([name for name, _ in QUEUE_FIELDS], rest))))
        elif kind == KEY:
            keys.setdefault(number(value, 0, 4), which)
        elif kind == MESSAGE:
            mtype, sender, *_ = split(value, WIDTHS[MESSAGE])
            messages.setdefault((id_, which), Message(which, mtype, sender, value[36:]))
    queues = {id_: entries[id_] for id_ in sorted(entries)[:256]}
    for (id_, serial), message in sorted(messages.items(), key=lambda item: item[0]):
        if id_ not in queues and len(queues) < 256:
            queues[id_] = Queue(id_, keys.get(id_), dict(MADE))
        if id_ in queues:
            held = queues[id_].messages
            size = sum(len(other.body) for other in held) + len(message.body)
            if len(held) < 1024 and size <= 65536 and serial < 2**64 - 1:
                held.append(message)
                queues[id_].kept["next_serial"] = max(queues[id_].kept["next_serial"], serial + 1)
    return [queues[id_] for id_ in sorted(queues)]


def salvaged(data):
    """The system that is made of a file with these bytes and what is printed, or none and a fault."""
    try:
        records, unread = read(data)
    except Wrong as wrong:
        return None, f"fault {wrong.args[0]}\n"
    records = [(key, value) for key, value in records if is_record(key, value)]
    queues, used = queues_in(records), set()
    for queue in queues:
        if queue.key in used:
            queue.key = None
        used.add(queue.key)
    next_ids = [number(value, 0, 4) for (kind, _, _), value in records if kind == COUNTER]
    system = System(max([1] + next_ids + [queue.id + 1 for queue in queues]), queues)
    lines = [f"salvaged {len(queues)} {sum(len(queue.messages) for queue in queues)}"]
    for page in unread:
        if lines[-1].endswith(f" {page - 1}") and lines[-1].startswith("unread"):
            lines[-1] = lines[-1].rsplit(" ", 1)[0] + f" {page}"
        else:
            lines.append(f"unread {page} {page}")
    return system, "\n".join(lines) + "\n"
