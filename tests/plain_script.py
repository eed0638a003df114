"""Scripts and schedules in plain Python, typed from docs/SCRIPTS.md: what is wrong with a text, and random ones."""
import re

KINDS = ("Grant Release ReadDepth ReadEntry Look Hop WriteRecord Decide TakePage CopyDirectory RaiseDepth WriteNew WriteOld Retarget "
         "SetCounts WriteLeft Tombstone Convert WriteFree LinkFree LowerDepth").split()

# Lines of which each is wrong by itself.
WRONG_LINES = [line.strip().encode("ascii") for line in """
1; 0 stop; 65 stop; -1 stop; +1 stop; one stop; 4294967297 stop; stop; 1 go; 1 STOP; 1 stop 1; 1 get; 1 get x;
1 get 4294967296; 1 get +1; 1 get 7 creat; 1 get 7 create create; 1 get 7 excl excl; 1 get 7 mode=66;
1 get 7 mode=0666; 1 get 7 mode=668; 1 get 7 mode=600 mode=600; 1 get 7 nowait; 1 snd 1 1; 1 snd 1 1 6; 1 snd 1 1 6g;
1 snd 1 1 --; 1 snd 1 +1 61; 1 snd 1 - 61; 1 snd 1 9223372036854775808 61; 1 snd 1 -9223372036854775809 61;
1 snd 1 1 61 noerror; 1 snd 1 1 61 nowait nowait; 1 rcv 1 10; 1 rcv 1 -1 0; 1 rcv 1 10 0 create;
1 rcv 1 10 0 noerror noerror; 1 stat; 1 stat 1 1; 1 set 1; 1 set 1 5 uid=; 1 set 1 5 uid=+1; 1 set 1 5 gid=1 gid=1;
1 set 1 5 excl; 1 rm; 1 rm x; ids 1 2; ids 1 2 3 4; ids 65 0 0; ids 1 x 0;
""".split(";") if line.strip()]
WRONG_LINES += [b" \t", b"1\x0bstop", b"# \xc3\xa9", b"1 stop\r"]

# And words of a schedule.
WRONG_WORDS = b"0 65 +1 -1 one 1? 1: 1:0 1:1000001 1:+2 1!! 1@ 1@decide 1@Decided ! @Look :3 STOP stop! 1stop".split()


def is_number(word):
    return re.fullmatch(r"[0-9]+", word) is not None and int(word) < 2**32


def is_key(word):
    return word == "private" or is_number(word)


def is_type(word):
    return re.fullmatch(r"-?[0-9]+", word) is not None and -2**63 <= int(word) < 2**63


def is_body(word):
    return word == "-" or re.fullmatch(r"([0-9A-Fa-f]{2})+", word) is not None


def is_seat(word):
    return is_number(word) and 1 <= int(word) <= 64


# Of each command, what its words have to be, and its options.
COMMANDS = {
    "get": ([is_key], ["create", "excl", "mode="]),
    "snd": ([is_number, is_type, is_body], ["nowait"]),
    "rcv": ([is_number, is_number, is_type], ["nowait", "noerror"]),
    "stat": ([is_number], []),
    "set": ([is_number, is_number], ["uid=", "gid=", "mode="]),
    "rm": ([is_number], []),
    "stop": ([], []),
}


def option_of(word):
    """The option that a word spells, or None."""
    name, equals, value = word.partition("=")
    is_right = re.fullmatch(r"[0-7]{3}", value) if name == "mode" else is_number(value)
    return name + equals if not equals or is_right else None


def is_command(words):
    if len(words) < 2 or not is_seat(words[0]) or words[1] not in COMMANDS:
        return False
    tests, options = COMMANDS[words[1]]
    given = [option_of(word) for word in words[2 + len(tests):]]
    return (len(words) >= 2 + len(tests) and all(test(word) for test, word in zip(tests, words[2:]))
            and all(option in options for option in given) and len(set(given)) == len(given))


def read_script(data):
    """The number of the first wrong line, or None; and the numbers of the lines with commands."""
    lines = data.split(b"\n")
    ends = [True] * (len(lines) - 1) + [False]
    if not lines[-1]:
        lines.pop()
    commands, named = [], set()
    for line, (text, is_ended) in enumerate(zip(lines, ends), 1):
        if max(text, default=0) >= 128 or (not is_ended and text.endswith(b"\r")):
            return line, []
        text = text[:-1] if text.endswith(b"\r") else text
        if not text or text.startswith(b"#"):
            continue
        words = [word for word in re.split("[ \t]", text.decode("ascii")) if word]
        if words[:1] == ["ids"] and len(words) == 4 and is_seat(words[1]) and is_number(words[2]) and is_number(words[3]):
            if commands or int(words[1]) in named:
                return line, []
            named.add(int(words[1]))
        elif is_command(words):
            commands.append(line)
        else:
            return line, []
    return None, commands


def seats_of(data, commands):
    """The seats of the lines with these numbers."""
    lines = data.split(b"\n")
    return {int(re.split(b"[ \t]", lines[line - 1].strip(b" \t\r"))[0]) for line in commands}


def is_event(word):
    found = re.fullmatch(r"([0-9]+)(?::([0-9]+)|(!)|@(\w+))?", word)
    if found is None or not is_seat(found[1]):
        return word == "stop"
    return (found[2] is None or (is_number(found[2]) and 1 <= int(found[2]) <= 1_000_000)) and (found[4] is None or found[4] in KINDS)


def read_schedule(data):
    """The number of the first wrong word, or None."""
    words = [word for word in re.split(b"[ \t\r\n]", data) if word]
    for place, word in enumerate(words, 1):
        if not is_event(word.decode("latin-1")):
            return place
    return None


# ---- random texts


def draw_number(rng):
    return str(rng.choice([0, 1, 1, 1, 2, 2, 7, 100, 2**32 - 1])).rjust(rng.choice([1, 1, 1, 3]), "0")


def draw_word(rng, test):
    if test is is_key:
        return rng.choice(["private", "7", "7", "8", draw_number(rng)])
    if test is is_type:
        return rng.choice(["0", "1", "2", "5", "-0", "-3", str(2**63 - 1), str(-2**63)])
    if test is is_body:
        return rng.choice(["-", "61", "aB0c", "61" * rng.choice([3, 1023, 1024, 1025])])
    return draw_number(rng)


def draw_line(rng):
    if rng.random() < 0.08:
        return rng.choice(["", "# a comment", "#\r", "1 stop "])
    command = rng.choice(["get", "snd", "snd", "snd", "rcv", "rcv", "stat", "set", "rm", "stop"])
    tests, options = COMMANDS[command]
    words = [str(rng.choice([1, 1, 1, 2, 3, 64])), command] + [draw_word(rng, test) for test in tests]
    for option in rng.sample(options, rng.randrange(len(options) + 1)):
        words.append(option + (rng.choice(["640", "000", "777"]) if option == "mode=" else "5" if option.endswith("=") else ""))
    return rng.choice([" ", " ", "\t", "  "]).join(words)


# Lines of which each makes a script wrong behind its first command.
WRONG = ["ids 2 0 0", "65 stop", "1 snd 1 1 61 nowait nowait", "1 go", " ", "1 stat +1", "1 get 4294967296 create", "1 snd 1 1 6",
         f"1 rcv 1 1 {2**63}", "1 get 7 mode=8", "1 rcv 1 1", "1", "1 stop 1"]


def draw_script(rng):
    """A script, of which some have one byte, word or line changed."""
    lines = ["1 get 7 create"] + [draw_line(rng) for _ in range(rng.randrange(30))]
    if rng.random() < 0.2:
        lines.insert(rng.randrange(len(lines)) + 1, rng.choice(WRONG))
    if rng.random() < 0.5:
        lines = ["ids 2 0 0"] * rng.choice([1, 1, 1, 1, 1, 2]) + lines
    end = rng.choices([b"\n", b"\r\n", b"", b"\r"], [4, 2, 2, 1])[0]
    data = bytearray(rng.choice(["\n", "\n", "\r\n"]).join(lines).encode() + end)
    if rng.random() < 0.2:
        data[rng.randrange(len(data))] = rng.randrange(256)
    return bytes(data)


def draw_text(rng):
    """Bytes that seldom are a script or a schedule, or bytes of their words."""
    letters = rng.choice([bytes(range(256)), b"1 2\n\r\t#getsndrcvpoi-:!@", b"1234567890 :!@\n"])
    return bytes(rng.choice(letters) for _ in range(rng.choice([0, 1, 5, 40, 400])))


def draw_schedule(rng):
    words = []
    for _ in range(rng.randrange(20)):
        seat = rng.choice(["1", "2", "3", "02", "64"])
        words.append(seat + rng.choice(["", "!", f":{rng.choice([1, 9, 300])}", "@" + rng.choice(KINDS)]))
    if rng.random() < 0.5:
        other = rng.choice(["stop", "0", "65", "1:0", "1:1000001", "1@Decided", "1!!", "x", "1:", "@Look"])
        words.insert(rng.randrange(len(words) + 1), other)
    return rng.choice([" ", "\n", "\r\n\t"]).join(words).encode()
