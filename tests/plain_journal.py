"""A file's journal in plain Python, typed from docs/FORMAT.md ("The journal")."""

import hashlib
import struct

PAGE = 4096
HEAD = 80
IMAGE = 4 + PAGE + 32
CALLS = 0x80000000
PUT_BACK = 0x40000000


def digest(data):
    return hashlib.sha256(data).digest()


def head(count, page_zero, save, version=2, magic=b"msgqundo"):
    """A head of a file of so many pages, with this page 0. Version 1 has no number of a save; behind one of version 3 calls may stand."""
    named = digest(page_zero) if version == 1 else struct.pack(">Q", save) + page_zero[4064:4088]
    data = magic + struct.pack(">II", version, count) + named
    return data + digest(data)


def entry(data, word, part):
    """An entry behind what stands in a journal."""
    part = struct.pack(">I", word) + part
    return part + digest(data[-32:] + part)


def journal(count, page_zero, images, save=1, version=2, calls=()):
    """A whole journal of additions of calls, and of these pages as they were, each with its number."""
    data = head(count, page_zero, save, version)
    for part in calls:
        data += entry(data, CALLS | len(part), part)
    for number, page in images:
        data += entry(data, number, page)
    return data


def entries(data):
    """What stands behind a whole head, as far as the digests are right: the additions of calls, and the images that are to be put back."""
    takes_calls, before, at = data[8:12] == b"\0\0\0\3", data[48:HEAD], HEAD
    calls, images = [], []
    while at + 36 <= len(data):
        (word,) = struct.unpack(">I", data[at : at + 4])
        many = PAGE
        if takes_calls and (word == PUT_BACK or word & CALLS):
            many = 0 if word == PUT_BACK else word & ~CALLS
        end = at + 4 + many
        sum_of = digest(before + data[at:end])
        if data[end : end + 32] != sum_of:
            break
        if takes_calls and word == PUT_BACK:
            images = []
        elif takes_calls and word & CALLS:
            calls.append(data[at + 4 : end])
        else:
            images.append((word, data[at + 4 : end]))
        before, at = sum_of, end + 32
    return calls, images


def said(data):
    """Whether a whole head stands, and the number of its save; None where no head tells one."""
    if len(data) < HEAD or digest(data[:48]) != data[48:HEAD]:
        return False, None
    version, (save,) = data[8:12], struct.unpack(">Q", data[16:24])
    if data[:8] == b"msgqdone":
        return False, save
    return data[:8] == b"msgqundo", 0 if version == b"\0\0\0\1" else save
