"""Tells what the threads of a process do, as tests/asleep.py PID: how many are in each state and call of the system, the words that they
sleep on with what these hold, and how long all of them ran so far. It needs the rights of a debugger; what it may not read is left out."""
import os
import struct
import sys
from collections import Counter

FUTEX = 202


def read(path):
    with open(path) as file:
        return file.read()


def word_at(process, address):
    """The eight bytes at an address of the process, as a number."""
    try:
        with open(f"{process}/mem", "rb", 0) as memory:
            return struct.unpack("<Q", os.pread(memory.fileno(), 8, address))[0]
    except OSError:
        return "what is not known"


def deed_of(process, task):
    """The state of a thread, and the call of the system in which it is."""
    state = read(f"{task}/stat").rsplit(") ", 1)[1].split()[0]
    try:
        number, *words = read(f"{task}/syscall").split()
    except OSError:
        return f"{state}"
    if number != str(FUTEX):
        return f"{state}, call {number}"
    address, _, seen = (int(word, 16) for word in words[:3])
    return f"{state}, sleeps while the word at {address:#x} is {seen}; it is {word_at(process, address)}"


def main():
    process = f"/proc/{sys.argv[1]}"
    deeds, ticks, switches = Counter(), 0, 0
    for task in os.listdir(f"{process}/task"):
        task = f"{process}/task/{task}"
        try:
            deeds[deed_of(process, task)] += 1
            fields = read(f"{task}/stat").rsplit(") ", 1)[1].split()
            ticks += int(fields[11]) + int(fields[12])
            switches += sum(int(line.split()[1]) for line in read(f"{task}/status").splitlines() if "ctxt_switches" in line)
        except (FileNotFoundError, ProcessLookupError):
            continue
    for deed, many in deeds.most_common():
        print(f"  {many} threads: {deed}")
    print(f"  they ran {ticks / os.sysconf('SC_CLK_TCK'):.2f} s, with {switches} switches")


main()
