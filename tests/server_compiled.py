"""Rows of tests/server that compile the front anew: its memory is watched while clients call, and each call of the system fails in turn."""
import os
import subprocess
import time

import frames as f
import server_clients as clients
import server_watched as watched
from serving import TOP, Server

SANITIZED = ["-fsanitize=address,undefined", "-fno-sanitize-recover=all"]
COMPILER = [os.environ.get("CC", "cc"), "-std=c11", "-D_GNU_SOURCE", "-O1", "-g", "-Wall", "-Wextra", "-Werror", "-pthread"]


def sources(folder):
    return [it.path for it in os.scandir(f"{TOP}/c/{folder}") if it.name.endswith(".c")]


def compile(room, name, words):
    """Whether a program is compiled."""
    done = subprocess.run([*COMPILER, *words], stdout=subprocess.PIPE, stderr=subprocess.STDOUT, text=True)
    room.judge(f"it compiles: {name}", (0, ""), (done.returncode, done.stdout))
    return done.returncode == 0


def rows_of_sanitizers(room):
    """The rows of clients by a front whose memory is watched."""
    made, no_do = room.path("sanitized"), room.path("no_do.c")
    # (so that it stands on no library)
    with open(no_do, "w") as file:
        file.write(f'#include "{TOP}/c/front/front.h"\n#include "{TOP}/c/front/served.h"\n')
        for verb in ("do", "with", "list", "stat", "top"):
            file.write(f"int {verb}_run(int count, char **words) {{ return count + (words == 0); }}\n")
        file.write("bool served_run(int count, char **words, int *status) { return *status = count, words == 0; }\n")
    parts = [f"{TOP}/c/{it}.c" for it in ("wire", *(f"front/{it}" for it in ("main", "programs", "proved", "settling", "afar", "groups", "words")))]
    if compile(room, "the front", [*SANITIZED, "-o", made, no_do, *parts, *sources("relay")]):
        server = Server(room, room.file(), front=room.root("checked", room.core, made))
        for rows in (*clients.ROWS, *watched.ROWS):
            rows(room, server)
        room.judge("sanitized: it ends", (0, ""), (server.end(), server.said()))
        rows_of_pressure(room, room.root("pressed", f"{TOP}/tests/fake_core", made))


def rows_of_pressure(room, front):
    """Far more than a pipe holds is asked while the core is at a save."""
    server = Server(room, room.file(), front=front, environment={"FAKE_CORE": "slow=0.5"})
    asking = [server.client() for _ in range(60)]
    asking[0].put(f.get(1, key=7, create=True, mode=0o600))
    time.sleep(0.1)
    for it in asking:
        it.put(b"".join(f.send(number, 1, 1, bytes(1024), nowait=True) for number in range(100, 164)))
    room.judge("what was asked first is answered first", (1, f.DONE), asking[0].answer()[:2])
    found = [[it.answer()[:2] for _ in range(64)] for it in asking]
    room.judge("each is answered in order", True, all([number for number, _ in its] == [*range(100, 164)] for its in found))
    codes = [code for its in found for _, code in its]
    room.judge("as many are sent as there is room for", (16, 3824), (codes.count(f.DONE), codes.count(f.EAGAIN)))
    for it in asking:
        it.close()
    room.judge("under pressure: it ends", (0, ""), (server.end(), server.said()))


def rows_of_calls(room):
    """c/tests/relay.c, as it is and under sanitizers."""
    with open(f"{TOP}/c/tests/relay.wraps") as file:
        wraps = file.read().split()
    parts = [f"{TOP}/c/{it}" for it in ("tests/relay.c", "front/words.c", "front/programs.c")]
    for name, flags in (("plain", []), ("sanitized", SANITIZED)):
        root = room.path(f"calls-{name}")
        os.makedirs(root + "/bin")
        os.makedirs(root + "/libexec/msgq")
        os.symlink(root + "/bin/relay", root + "/libexec/msgq/msgqd")
        if compile(room, f"relay.c, {name}", [*flags, "-o", root + "/bin/relay", *parts, *sources("relay"), *wraps]):
            done = subprocess.run([root + "/bin/relay", room.path("calls")], stdout=subprocess.PIPE, stderr=subprocess.STDOUT, text=True)
            room.judge(f"each call of the system fails in turn, {name}", (0, ", 0 failed\n"), (done.returncode, done.stdout[-11:]))
            if done.returncode != 0:
                print(done.stdout)


def rows_of_asking(room):
    """c/tests/afar.c, as it is and under sanitizers."""
    parts = [f"{TOP}/c/{it}.c" for it in ("tests/afar", "front/afar", "front/census", "front/table", "wire")]
    for name, flags in (("plain", []), ("sanitized", SANITIZED)):
        made = room.path(f"afar-{name}")
        if compile(room, f"afar.c, {name}", [*flags, "-o", made, *parts, "-Wl,--wrap=malloc,--wrap=realloc"]):
            done = subprocess.run([made, room.path("afar")], stdout=subprocess.PIPE, stderr=subprocess.STDOUT, text=True)
            room.judge(f"what a server is asked by itself, {name}", (0, ", 0 failed\n"), (done.returncode, done.stdout[-11:]))
            if done.returncode != 0:
                print(done.stdout)


def rows_of_settling(room):
    """c/tests/settling.c, as it is and under sanitizers."""
    with open(f"{TOP}/c/tests/settling.wraps") as file:
        wraps = file.read().split()
    parts = [f"{TOP}/c/{it}.c" for it in ("tests/settling", "front/settling", "front/afar", "wire")]
    for name, flags in (("plain", []), ("sanitized", SANITIZED)):
        made = room.path(f"settling-{name}")
        if compile(room, f"settling.c, {name}", [*flags, "-o", made, *parts, *wraps]):
            done = subprocess.run([made, room.path("settled")], stdout=subprocess.PIPE, stderr=subprocess.STDOUT, text=True)
            room.judge(f"calls in a journal that a command finds, {name}", (0, ", 0 failed\n"), (done.returncode, done.stdout[-11:]))
            if done.returncode != 0:
                print(done.stdout)
