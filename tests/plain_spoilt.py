"""A file of two queues on two buckets, typed from docs/FORMAT.md, and a table of what can be wrong with one, with the fault of docs/FAULTS.md."""
from plain_file import (COUNTER, FIELDS, KEY, MESSAGE, PAYLOAD, QUEUE, TYPE, Message, Queue, System, bucket_payload, number, pseudokey, records_in,
                        records_of)

ROOT, UPPER, FIRST_FREE, PAGES = 257, 258, 259, 288


def file_of_two():
    """The payloads of a file of two queues and five messages: 288 pages, depth 1, buckets on pages 257 and 258, free from 259 on."""
    kept = dict(qbytes=16384, lspid=1, lrpid=0, stime=9, rtime=0, ctime=1, next_serial=5, uid=0, gid=0, cuid=0, cgid=0, mode=0o666)
    first = [Message(serial, 1, 1, b"a" * 1024) for serial in (1, 2, 3, 4)]
    second = dict(kept, stime=4, lrpid=1, rtime=5, ctime=2, next_serial=3)
    records = records_of(System(3, [Queue(1, 7, kept, first), Queue(2, 9, second, [Message(2, 2, 1, b"b")])]))
    halves = [{key: value for key, value in records.items() if pseudokey(key) % 2 == half} for half in (0, 1)]
    header = b"\1\2\1\0MSGQFILE" + b"".join(it.to_bytes(4, "big") for it in (PAGES, FIRST_FREE, 0, 2))
    directory = b"\2".ljust(FIELDS, b"\0")
    payloads = {page: directory.ljust(PAYLOAD, b"\0") for page in range(1, ROOT)}
    payloads[0] = header.ljust(PAYLOAD, b"\0")
    payloads[1] = (directory + ROOT.to_bytes(4, "big") + UPPER.to_bytes(4, "big")).ljust(PAYLOAD, b"\0")
    payloads[ROOT], payloads[UPPER] = bucket_payload(1, 0, UPPER, halves[0]), bucket_payload(1, 1, 0, halves[1])
    payloads |= {page: linked(5, (page + 1) % PAGES) for page in range(FIRST_FREE, PAGES)}
    return payloads


def linked(kind, page):
    """A free page, or a tombstone, and the page that it names."""
    return (bytes([kind, 0, 0, 0]) + page.to_bytes(4, "big")).ljust(PAYLOAD, b"\0")


def with_records(payload, records):
    return bucket_payload(payload[1], number(payload, 4, 4), number(payload, 8, 4), records)


def spoilt_files(payloads):
    """Rows: what is changed, the payloads that differ, and what `check` prints."""
    def changed(page, at, width, value):
        return {page: payloads[page][:at] + value.to_bytes(width, "big") + payloads[page][at + width:]}

    def home(key):
        return ROOT + pseudokey(key) % 2

    def with_record(key, value):
        return {home(key): with_records(payloads[home(key)], {**records_in(payloads[home(key)]), key: value})}

    def without(page, key):
        return {page: with_records(payloads[page], {other: value for other, value in records_in(payloads[page]).items() if other != key})}

    def with_number(key, at, width, value):
        record = records_in(payloads[home(key)])[key]
        return with_record(key, record[:at] + value.to_bytes(width, "big") + record[at + width:])

    key_7, counter = (KEY, 0, 7), (COUNTER, 0, 0)
    other = ROOT + UPPER - home(key_7)
    moved = {**without(home(key_7), key_7), other: with_records(payloads[other], {**records_in(payloads[other]), key_7: bytes([0, 0, 0, 1])})}
    two = [15 + len(value) for _, value in sorted(records_in(payloads[UPPER]).items())[:2]]
    first, second = payloads[UPPER][FIELDS:FIELDS + two[0]], payloads[UPPER][FIELDS + two[0]:FIELDS + sum(two)]
    swapped = payloads[UPPER][:FIELDS] + second + first + payloads[UPPER][FIELDS + sum(two):]
    serials = (1).to_bytes(8, "big") + (4).to_bytes(8, "big")
    rows = [
        ("nothing", {}, "ok 2 5"), ("entry 2 is 9999", changed(1, FIELDS + 8, 4, 9999), "ok 2 5"),
        *[(f"the next of 258 is {page}", changed(UPPER, 8, 4, page), "fault 70") for page in (ROOT, 5, FIRST_FREE, PAGES)],
        ("the pattern of 258 is 0", changed(UPPER, 4, 4, 0), "fault 70"), ("257 is a tombstone", {ROOT: linked(4, UPPER)}, "fault 70"),
        ("the first free page is 0", changed(0, 16, 4, 0), "fault 71"),
        *[(f"the link of 287 is {page}", changed(PAGES - 1, 4, 4, page), "fault 71") for page in (FIRST_FREE, PAGES)],
        ("287 is a tombstone", changed(PAGES - 1, 0, 1, 4), "fault 71"),
        ("entry 1 is 257", changed(1, FIELDS + 4, 4, ROOT), "fault 72"),
        *[(f"the depth is {depth}", changed(0, 2, 1, depth), "fault 72") for depth in (0, 2)],
        ("three buckets of depth 1", changed(0, 24, 4, 3), "fault 72"),
        ("the Key of 7 stands in the other bucket", moved, "fault 74"),
        ("a Type too many", with_record((TYPE, 1, 4), serials + bytes(16)), "fault 74"),
        ("a record of kind 6", with_record((6, 0, 0), bytes(4)), "fault 43"),
        ("the qnum of queue 1 is 3", with_number((QUEUE, 1, 0), 13, 4, 3), "fault 73"),
        ("behind message 4 of queue 1 stands 1", with_number((MESSAGE, 1, 4), 20, 8, 1), "fault 73"),
        ("no Counter", without(home(counter), counter), "fault 73"),
        ("the pattern of 258 is 2", changed(UPPER, 4, 4, 2), "fault 40"), ("two records of 258 in the wrong order", {UPPER: swapped}, "fault 40"),
        ("the last byte of 258 is 1", changed(UPPER, PAYLOAD - 1, 1, 1), "fault 40"), ("258 is of kind 6", changed(UPPER, 0, 1, 6), "fault 40"),
        ("2 is a free page", changed(2, 0, 1, 5), "fault 40"),
        *[(f"a page more, {name}", {PAGES: page}, "fault 41") for name, page in [("free", payloads[PAGES - 1]), ("of zeros", bytes(PAYLOAD)),
                                                                                ("as page 0", payloads[0])]],
    ]
    return [(name, differ, f"{told}\n") for name, differ, told in rows]
