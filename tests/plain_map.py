"""The map of a right file in plain Python, typed from docs/FORMAT.md and docs/SHELL.md: tests/plain_map.py FILE prints it."""
import json
import os
import sys

sys.path.insert(0, os.path.dirname(os.path.realpath(__file__)))
from plain_file import BUCKET, FREE, PAGE, TODAY, number  # noqa: E402

QUEUE, MESSAGE = 3, 5


def records_in(data, count):
    """The kinds of the records that stand in these bytes."""
    at = 0
    for _ in range(count):
        yield data[at + 2]
        at += 15 + number(data, at, 2)


def map_of(data):
    """The map of the bytes of a file, as data of JSON."""
    pages = [data[at:at + PAGE] for at in range(0, len(data), PAGE)]
    depth, root = pages[0][2], TODAY.root
    entries = [number(pages[1 + index // 512], 16 + 4 * (index % 512), 4) for index in range(2**depth)]
    buckets, free, kinds, page = [], [], [], root
    while page:
        head = pages[page]
        assert head[0] == BUCKET
        buckets.append({"bytes": number(head, 12, 2), "depth": head[1], "next": number(head, 8, 4), "page": page,
                        "pattern": number(head, 4, 4), "records": number(head, 2, 2)})
        kinds += records_in(head[16:], buckets[-1]["records"])
        page = buckets[-1]["next"]
    page = number(pages[0], 16, 4)
    while page:
        assert pages[page][0] == FREE
        free.append(page)
        page = number(pages[page], 4, 4)
    return {"buckets": buckets, "depth": depth, "entries": entries, "free": free, "messages": kinds.count(MESSAGE), "pages": len(pages),
            "queues": kinds.count(QUEUE)}


if __name__ == "__main__":
    with open(sys.argv[1], "rb") as file:
        print(json.dumps(map_of(file.read()), separators=(",", ":")))
