"""The proofs of a build, side by side (`tools/build`).

One chain of crates that stand on each other takes longer than all that stands beside it, and the prover can work at one crate with several
processors. So the crate with the longest chain above it goes first, and has the processors for which no other crate waits.

What is made of a proved crate stays in its folder, out/rlib, with the sum of all that it was made of: a build that is cut off goes on from there,
and after a change those crates alone are proved anew that stand on it. Only a crate that the prover has proved is built (`rattle build`).
"""
import contextlib
import functools
import hashlib
import os
import re
import shutil
import signal
import subprocess
import threading

# As many processors as a proof can use: above that there is no gain.
MOST_JOBS = 3
# What the start of a proof takes, and more for each crate that it stands on, in lines of code that take as long.
START, BELOW = 50, 20
# A chain is long where it has so much of the longest that is left.
LONG = 0.85
# Another proof begins where so many bytes of memory are free, and has one processor more where so many are.
MEMORY_OF_A_PROOF, MEMORY_OF_A_JOB = 4_500_000_000, 8_000_000_000
PARTS = ("src", "specs", "proofs")
TARGET = "x86_64-unknown-linux-gnu"


def text_of(path):
    with open(path, encoding="utf-8") as file:
        return file.read()


def in_group(name):
    """A limit of the control group, as numbers; none where there is none."""
    with contextlib.suppress(OSError, ValueError):
        return [int(it) for it in text_of(f"/sys/fs/cgroup/{name}").split()]
    return []


def processors():
    """How many there are for the proofs; RT_JOBS says another number."""
    if os.environ.get("RT_JOBS", "").isdigit():
        return max(1, int(os.environ["RT_JOBS"]))
    quota = in_group("cpu.max")
    return max(1, min([len(os.sched_getaffinity(0)), *([quota[0] // quota[1]] if len(quota) == 2 else [])]))


def free_memory():
    """In bytes."""
    free = [1024 * int(re.search(r"MemAvailable:\s+(\d+)", text_of("/proc/meminfo"))[1])]
    most, held = in_group("memory.max"), in_group("memory.current")
    return min([*free, *([most[0] - held[0]] if most and held else [])])


@functools.cache
def kit():
    """The toolchain's folder, and its sum: its one line, and the prover as it stands there."""
    folder = os.path.dirname(subprocess.run(["rt", "doc"], stdout=subprocess.PIPE, text=True, check=True).stdout.strip())
    version = subprocess.run(["rt", "version"], stdout=subprocess.PIPE, check=True).stdout
    prover = os.stat(f"{folder}/bin/rattle")
    return folder, version + f"{prover.st_size} {prover.st_mtime_ns}".encode()


class Crate:
    """A crate of a build: what it is made of, and what is made of it."""

    def __init__(self, room, kept, line, libraries):
        self.name = re.match(r"\w+", line)[0]
        self.room, self.kept, self.line, self.uses = f"{room}/crates/{self.name}", kept, line, libraries
        self.is_program = os.path.isfile(f"{self.room}/src/main.rt")
        self.is_archive = "staticlib" in line.partition(":")[0].split()
        self.lines = START + sum(text_of(it).count("\n") for it in self.files() if it.endswith(".rt"))
        self.below, self.sum = [], None

    def files(self):
        return sorted(f"{at}/{it}" for part in PARTS for at, _, names in os.walk(f"{self.room}/{part}") for it in names)

    def stand_on(self, crates):
        """Takes the crates below it, which know theirs, lowest first."""
        for it in self.uses:
            if it in crates:
                self.below += [low for low in [*crates[it].below, crates[it]] if low not in self.below]
        sum = hashlib.sha256(kit()[1] + self.line.encode())
        for it in self.files():
            with open(it, "rb") as file:
                sum.update(f"{os.path.relpath(it, self.room)}\0".encode() + hashlib.sha256(file.read()).digest())
        for it in self.below:
            sum.update(it.sum.encode())
        self.sum = sum.hexdigest()

    @property
    def rlib(self):
        return f"{self.kept}/{self.name}.rlib"

    def is_kept(self):
        with contextlib.suppress(OSError):
            return text_of(f"{self.kept}/sum") == self.sum
        return False

    def words(self, made, jobs):
        """The command that proves and builds it."""
        folder, _ = kit()
        own = {it.name: it for it in self.below}
        words = [f"{folder}/bin/rattle", "build", "--crate-name", self.name, f"src/{'main' if self.is_program else 'lib'}.rt"]
        for it in dict.fromkeys([*self.uses, "std"]):
            words += ["--extern", f"{it}={own[it].rlib if it in own else f'{folder}/rlibs/{it}.rlib'}"]
        for it in [f"{folder}/rlibs", *(low.kept for low in self.below)]:
            words += ["-L", f"dependency={it}"]
        words += ["--antt-project", f"{folder}/rattle/logic/antt-project.json", "--logic-built", f"{folder}/logic_built"]
        words += ["--links", f"{self.name}=", "--jobs", str(jobs), "-o", made]
        return words + (["--toolchain", f"{folder}/toolchain", "--backend", "llvm"] if self.is_program else ["--statements"])

    def prove(self, jobs, run):
        """Proves it and puts what is made of it to its place. Returns the status, and what was said."""
        folder, _ = kit()
        if self.is_archive:
            # (it stands on the libraries where `rt ci` leaves them)
            for it in self.below:
                os.makedirs(f"{it.room}/out", exist_ok=True)
                if not os.path.islink(f"{it.room}/out/rlib"):
                    os.symlink(it.kept, f"{it.room}/out/rlib")
            return run([f"{os.path.dirname(os.path.dirname(self.room))}/c/archive", "--jobs", str(jobs)], self.room)
        shutil.rmtree(self.kept, ignore_errors=True)
        os.makedirs(self.kept)
        if not self.is_program:
            status, said = run(self.words(self.rlib, jobs), self.room)
        else:
            program = f"{self.kept}/{self.name}"
            status, said = run(self.words(f"{program}.o", jobs), self.room)
            if status == 0:
                words = [f"{folder}/bin/rattle-link", "--target", TARGET, "--toolchain", f"{folder}/toolchain", "-o", program, f"{program}.o"]
                status, said = run([*words, f"{folder}/c/libos_c.a", f"{folder}/c/liblibc_c.a"], self.room)
                os.remove(f"{program}.o")
        if status == 0:
            with open(f"{self.kept}/sum", "w", encoding="utf-8") as file:
                file.write(self.sum)
        return status, said


def crates_of(room, kept, lines):
    """The crates of a build by name, the lowest first; `lines` has those of crates.txt, and `kept` tells where what is made of a crate stays."""
    found, sorted_crates = {}, {}
    for name, line in lines.items():
        found[name] = Crate(room, kept(name), line, re.match(r"[^#:]*:([^#]*)", line)[1].split())

    def add(name):
        if name in found and name not in sorted_crates:
            for it in found[name].uses:
                add(it)
            found[name].stand_on(sorted_crates)
            sorted_crates[name] = found[name]

    for it in found:
        add(it)
    return sorted_crates


class Proofs:
    """Which crates are proved, under way and left."""

    def __init__(self, crates):
        self.crates, self.running, self.processes = crates, {}, set()
        self.proved = {name for name, it in crates.items() if it.is_kept()}
        self.alone, self.failed, self.said = set(), None, []
        self.news, self.is_ended = threading.Condition(), False
        self.most, self.above = processors(), dict.fromkeys(crates, 0)
        for name, it in reversed([*crates.items()]):
            self.above[name] += it.lines + BELOW * len(it.below)
            for low in it.below:
                self.above[low.name] = max(self.above[low.name], self.above[name])

    def next(self):
        """The crate that is to be begun next, and for how many processors; None where none is."""
        idle, memory = self.most - sum(self.running.values()), free_memory()
        left = [it for it in self.crates if it not in self.proved]
        ready = [it for it in left if it not in self.running and all(low.name in self.proved for low in self.crates[it].below)]
        if not ready or idle <= 0 or self.running and (memory < MEMORY_OF_A_PROOF or self.alone):
            return None
        first = max(ready, key=lambda it: self.above[it])
        is_long = self.above[first] >= LONG * max(self.above[it] for it in left)
        if first in self.alone or memory < MEMORY_OF_A_JOB:
            return first, 1
        # One of a long chain has two where others wait for the rest; else those that are ready share.
        share = idle if len(ready) == 1 else 2 if is_long else idle // len(ready)
        return first, max(1, min(share, idle, MOST_JOBS))

    def run(self, words, folder):
        """Runs a command to its end; returns its status and what it said."""
        how = {"stdin": subprocess.DEVNULL, "stdout": subprocess.PIPE, "stderr": subprocess.STDOUT, "text": True, "errors": "replace"}
        # (the prover's allocator keeps its memory: two thirds of its page faults)
        with self.news:
            if self.is_ended:
                return 1, ""
            process = subprocess.Popen(words, cwd=folder, env={**os.environ, "MIMALLOC_PURGE_DELAY": "-1"}, start_new_session=True, **how)
            self.processes.add(process)
        said = process.communicate()[0]
        with self.news:
            self.processes.discard(process)
        return process.returncode, said

    def prove(self, name, jobs):
        """Proves a crate by so many processors, and notes what came of it."""
        try:
            status, said = self.crates[name].prove(jobs, self.run)
        except OSError as error:
            status, said = 1, f"{error}\n"
        with self.news:
            del self.running[name]
            was_killed = status == -signal.SIGKILL
            if status == 0:
                self.proved.add(name)
                self.alone.discard(name)
            elif was_killed and name not in self.alone and not self.is_ended:
                # most likely for want of memory: once more, with nothing beside it
                self.alone.add(name)
            elif self.failed is None:
                self.failed, self.said = name, [*said.splitlines(), *["the proof was killed, most likely for want of memory"] * was_killed]
            self.news.notify()

    def all(self):
        """Proves all that is left, and tells each second the crate that was proved last, None where that has not changed. Ends where one is not proved."""
        told = set(self.proved)
        try:
            while self.failed is None and len(self.proved) < len(self.crates):
                with self.news:
                    found = self.next()
                    if found:
                        self.running[found[0]] = found[1]
                        threading.Thread(target=self.prove, args=found, daemon=True).start()
                        continue
                    self.news.wait(1)
                    new = self.proved - told
                told |= new
                yield max(new, default=None)
        finally:
            self.end()

    def end(self):
        """Ends what is under way."""
        with self.news:
            self.is_ended = True
            for it in self.processes:
                with contextlib.suppress(ProcessLookupError):
                    os.killpg(it.pid, signal.SIGTERM)
        while self.running:
            with self.news:
                self.news.wait(1)
