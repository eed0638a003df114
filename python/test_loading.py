"""Where msgq.py looks for the library, and what it says where there is none."""

import ctypes
import ctypes.util
import os
import shutil

import msgq
from expecting import HERE, expect, run


def try_all(folder):
    """`folder` is new, and has msgq.py alone, then the library beside it, then that in ../c/out."""
    alone, library = os.path.join(folder, "python"), os.path.realpath(msgq._lib._name)
    built = os.path.join(folder, "c", "out")
    os.makedirs(alone)
    shutil.copy(os.path.join(HERE, "msgq.py"), alone)
    where = lambda **settings: run(folder, "import msgq; print(msgq._lib._name)", folder=alone, **settings)
    beside = os.path.join(alone, "libmsgq.so")

    def expect_none(what, *words, **settings):
        status, _, errors = where(**settings)
        expect(status, 1, what)
        for word in ("ImportError", "c/build", "MSGQ_LIBRARY", *words):
            expect(word in errors.splitlines()[-1], True, f"{what}: {word!r} in {errors}")

    if not has_system():
        expect_none("no library", beside, os.path.join(built, "libmsgq.so"), MSGQ_LIBRARY="")
    expect_none("a library that MSGQ_LIBRARY names and that is not there", "/no/such.so", MSGQ_LIBRARY="/no/such.so")
    other = ctypes.util.find_library("c") or "libc.so.6"
    shutil.copy(os.path.join(HERE, "msgq.py"), beside)
    expect_none("a library that is none", beside, MSGQ_LIBRARY="")
    os.remove(beside)
    os.symlink(next(line.split()[-1] for line in open("/proc/self/maps") if "/" + other in line), beside)
    expect_none("a library of other functions", beside, "msgq_create", MSGQ_LIBRARY="")
    os.remove(beside)
    os.makedirs(built)
    os.symlink(library, os.path.join(built, "libmsgq.so"))
    expect(where(MSGQ_LIBRARY=""), (0, os.path.join(built, "libmsgq.so") + "\n", ""), "a library in ../c/out")
    os.symlink(library, beside)
    expect(where(MSGQ_LIBRARY=""), (0, beside + "\n", ""), "a library beside the module")
    expect(where(MSGQ_LIBRARY=library), (0, library + "\n", ""), "a library that MSGQ_LIBRARY names")


def has_system():
    try:
        ctypes.CDLL("libmsgq.so")
        return True
    except OSError:
        return False
