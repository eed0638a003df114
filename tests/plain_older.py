"""A file of version 1 of two queues, typed from docs/FORMAT.md, and a table of what can be wrong with one."""
from plain_file import (COUNTER, KEY, MESSAGE, OLDER, PAYLOAD, QUEUE, TYPE, Message, Queue, System, bucket_payload, number, older_records,
                        pseudokey, records_in, records_of)


# The records of a file of version 1, byte for byte: of the script `1 get 7 create`, `1 snd 1 5 61`, `1 snd 1 2 62`, `1 snd 1 3 63`.
TYPED = """
0008 01 00000000 0000000000000000  00000002 00000001
0004 02 00000000 0000000000000007  00000001
0051 03 00000001 0000000000000000  01 00000007 00004000 00000003 00000003 00000001 00000000 0000000000000004 0000000000000000
    0000000000000001 0000000000000004 0000000000000001 0000000000000003 0000000000000002
0020 04 00000001 0000000000000002  0000000000000002 0000000000000002 0000000000000000 0000000000000003
0020 04 00000001 0000000000000003  0000000000000003 0000000000000003 0000000000000002 0000000000000005
0020 04 00000001 0000000000000005  0000000000000001 0000000000000001 0000000000000003 0000000000000000
0025 05 00000001 0000000000000001  0000000000000005 00000001 0000000000000000 0000000000000002 0000000000000000 61
0025 05 00000001 0000000000000002  0000000000000002 00000001 0000000000000001 0000000000000003 0000000000000000 62
0025 05 00000001 0000000000000003  0000000000000003 00000001 0000000000000002 0000000000000000 0000000000000000 63
"""


def typed_older_file():
    """The payloads of that file: 36 pages, of which 33 has the records and 34 and 35 are free."""
    typed = {page: b"\2" for page in range(1, 33)}
    typed |= {0: b"\1\1\0\0MSGQFILE" + bytes([0, 0, 0, 36, 0, 0, 0, 34, 0, 0, 0, 1]), 1: b"\2" + bytes(18) + bytes([33])}
    typed |= {33: b"\3\0\0\11" + bytes(8) + bytes([1, 179, 0, 0]) + bytes.fromhex(TYPED), 34: b"\5" + bytes(6) + bytes([35]), 35: b"\5"}
    return {page: payload.ljust(PAYLOAD, b"\0") for page, payload in typed.items()}


def typed_system():
    """What that file holds; a queue of version 1 is of user 0 and group 0, and its mode is 666."""
    kept = dict(qbytes=16384, lspid=1, lrpid=0, stime=4, rtime=0, ctime=1, next_serial=4, uid=0, gid=0, cuid=0, cgid=0, mode=0o666)
    return System(2, [Queue(1, 7, kept, [Message(1, 5, 1, b"a"), Message(2, 2, 1, b"b"), Message(3, 3, 1, b"c")])])


def put_record(payload, key, value):
    """A bucket with a record more, or with another value of it."""
    records = {**records_in(payload, OLDER), key: value}
    return bucket_payload(payload[1], number(payload, 4, 4), number(payload, 8, 4), records)


def without_record(payload, key):
    records = {other: value for other, value in records_in(payload, OLDER).items() if other != key}
    return bucket_payload(payload[1], number(payload, 4, 4), number(payload, 8, 4), records)


def key_within(kind, queue, first, pattern):
    """The first key of a kind from a number on whose pseudokey is in this half of all."""
    which = first
    while pseudokey((kind, queue, which)) % 2 != pattern:
        which += 1
    return kind, queue, which


def older_file_of_two():
    """The payloads of a file of version 1 of two queues and five messages: 64 pages, depth 1, buckets on pages 33 and 34, free from 35 on."""
    kept = dict(qbytes=16384, lspid=1, lrpid=0, stime=9, rtime=0, ctime=1, next_serial=5, uid=0, gid=0, cuid=0, cgid=0, mode=0)
    first = [Message(serial, mtype, 1, b"a" * serial) for serial, mtype in ((1, 5), (2, 2), (3, 5), (4, 9))]
    queues = [Queue(1, 7, kept, first), Queue(2, None, dict(kept, next_serial=2), [Message(1, 1, 2, b"")])]
    records = older_records(records_of(System(3, queues)))
    halves_ = [{key: value for key, value in records.items() if pseudokey(key) % 2 == half} for half in (0, 1)]
    payloads = {page: (b"\2" + bytes(15)).ljust(PAYLOAD, b"\0") for page in range(1, 33)}
    payloads[0] = (b"\1\1\1\0MSGQFILE" + bytes([0, 0, 0, 64, 0, 0, 0, 35]) + bytes([0, 0, 0, 0, 0, 0, 0, 2])).ljust(PAYLOAD, b"\0")
    payloads[1] = (b"\2" + bytes(15) + bytes([0, 0, 0, 33, 0, 0, 0, 34])).ljust(PAYLOAD, b"\0")
    payloads[33], payloads[34] = bucket_payload(1, 0, 34, halves_[0]), bucket_payload(1, 1, 0, halves_[1])
    payloads |= {page: (b"\5" + bytes(6) + bytes([(page + 1) % 64])).ljust(PAYLOAD, b"\0") for page in range(35, 64)}
    return payloads


def spoilt_older_files(payloads):
    """Rows of what is wrong with it: its name, the payloads that differ, and what `migrate` tells. The bytes are those of docs/FORMAT.md."""
    def changed(page, at, *numbers):
        return {page: payloads[page][:at] + bytes(numbers) + payloads[page][at + len(numbers):]}

    def page_with(key):
        return next(page for page in (33, 34) if key in records_in(payloads[page], OLDER))

    def with_value(key, at, *numbers):
        page = page_with(key)
        value = records_in(payloads[page], OLDER)[key]
        return {page: put_record(payloads[page], key, value[:at] + bytes(numbers) + value[at + len(numbers):])}

    key_7, counter, queue_1 = (KEY, 0, 7), (COUNTER, 0, 0), (QUEUE, 1, 0)
    home, other = page_with(key_7), 67 - page_with(key_7)
    moved = {home: without_record(payloads[home], key_7), other: put_record(payloads[other], key_7, bytes([0, 0, 0, 1]))}
    stray = key_within(TYPE, 1, 10, 0)
    two = sorted(records_in(payloads[34], OLDER))[:2]
    swapped = bytearray(payloads[34])
    lengths = [15 + len(records_in(payloads[34], OLDER)[key]) for key in two]
    first, second = swapped[16:16 + lengths[0]], swapped[16 + lengths[0]:16 + sum(lengths)]
    swapped[16:16 + sum(lengths)] = second + first
    cut = b"\4" + bytes(6) + bytes([34])
    return [
        ("nothing", {}, "migrated 2 5"), ("entry 2 is 9999", changed(1, 26, 0x27, 0x0f), "migrated 2 5"),
        *[(f"the next of 34 is {page}", changed(34, 10, 0, page), "fault 70") for page in (33, 5, 35, 64)],
        ("the pattern of 34 is 0", changed(34, 7, 0), "fault 70"), ("33 is a tombstone", {33: cut.ljust(PAYLOAD, b"\0")}, "fault 70"),
        ("the first free page is 0", changed(0, 19, 0), "fault 71"), ("the link of 63 is 35", changed(63, 7, 35), "fault 71"),
        ("the link of 63 is 64", changed(63, 7, 64), "fault 71"), ("63 is a tombstone", changed(63, 0, 4), "fault 71"),
        ("entry 1 is 33", changed(1, 23, 33), "fault 72"), ("the depth is 0", changed(0, 2, 0), "fault 72"),
        ("the depth is 2", changed(0, 2, 2), "fault 72"), ("three buckets of depth 1", changed(0, 27, 3), "fault 72"),
        ("the Key of 7 stands in the other bucket", moved, "fault 74"),
        ("a Type too many", {33: put_record(payloads[33], stray, bytes(7) + b"\1" + bytes(7) + b"\1" + bytes(16))}, "fault 74"),
        ("a record of kind 6", {33: put_record(payloads[33], key_within(6, 0, 0, 0), bytes(4))}, "fault 43"),
        ("a Queue of 99 bytes", {page_with(queue_1): put_record(payloads[page_with(queue_1)], queue_1, bytes(99))}, "fault 43"),
        ("the qnum of queue 1 is 3", with_value(queue_1, 16, 3), "fault 73"),
        ("behind its message 4 is 1", with_value((MESSAGE, 1, 4), 27, 1), "fault 73"),
        ("no Counter", {page_with(counter): without_record(payloads[page_with(counter)], counter)}, "fault 73"),
        ("the pattern of 34 is 2", changed(34, 7, 2), "fault 40"), ("two records of 34 in the wrong order", {34: bytes(swapped)}, "fault 40"),
        ("the last byte of 34 is 1", changed(34, PAYLOAD - 1, 1), "fault 40"), ("34 is of kind 6", changed(34, 0, 6), "fault 40"),
        ("2 is a free page", changed(2, 0, 5), "fault 40"), ("a local depth of 15", changed(34, 1, 15), "fault 40"),
        ("a depth of 15", changed(0, 2, 15), "fault 41"), ("a page more", {64: payloads[63]}, "fault 41"),
        ("of version 2", changed(0, 1, 2), "fault 42"), ("of 65 pages", changed(0, 15, 65), "fault 22"),
    ]
