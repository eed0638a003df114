"""What a disk may hold that lost its power, of a file and its journal, and the transfers to them as strace tells them."""

import re

SECTOR = 512
CALL = re.compile(r'(pwrite64|fsync|fdatasync|ftruncate)\((\d+)<([^>]*)>(?:, (?:"((?:\\x[0-9a-f]{2})*)", \d+, )?(\d+)?)?.* = (-?\d+)')


def bytes_of(text):
    """The bytes that strace has told as `x..` behind backslashes; where it told a name in part so, the rest is as it stands."""
    return re.sub(rb"\\x([0-9a-f]{2})", lambda byte: bytes.fromhex(byte[1].decode()), (text or "").encode())


class Disk:
    """The file and its journal: what is on the disk of each, and what was written since."""

    def __init__(self, file, its_journal):
        self.synced = [file, its_journal]
        self.changes = [[], []]

    def change(self, call):
        """A call of the system: 0 for the file or 1 for the journal, what it does, where, and the bytes."""
        which, name, at, data = call
        if name == "sync":
            self.synced[which] = self.mixed(which, lambda: True)
            self.changes[which] = []
        elif name == "cut":
            self.changes[which].append((None, at, b""))
        else:
            while data:
                end = (at // SECTOR + 1) * SECTOR - at
                self.changes[which].append(("write", at, data[:end]))
                at, data = at + len(data[:end]), data[end:]

    def mixed(self, which, is_kept, garbage=None):
        """What the disk has, with those of the changes that are kept."""
        data = bytearray(self.synced[which])
        for name, at, part in self.changes[which]:
            if not is_kept():
                continue
            if name is None:
                del data[at:]
                continue
            if at > len(data):
                gap = at - len(data)
                data += garbage.randbytes(gap) if garbage else bytes(gap)
            data[at : at + len(part)] = part
        return bytes(data)

    def outcomes(self, chance, many):
        """Some of what may be left: nothing of what was written, all of it, and mixtures."""
        yield [self.mixed(n, lambda: False) for n in (0, 1)]
        yield [self.mixed(n, lambda: True) for n in (0, 1)]
        for turn in range(many):
            share = (0.5, 0.9, 0.1, 0.97)[turn % 4]
            garbage = chance if turn % 2 else None
            yield [self.mixed(n, lambda: chance.random() < share, garbage) for n in (0, 1)]
