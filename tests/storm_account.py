"""What the logs of a storm (tests/storm.py) come to. Each account tells, by what has to be so, what is not.

A request that was under way as its client or the server was killed may have been made or not: of a send it is not known whether its message came to
be, nor of an acknowledgement whether its message is gone. A receive may have taken a message that nobody was told. Which one is bounded: each
worker alone receives the messages of its type, in the order of their serials. So what it is not told is one for each receive that was under way by then."""
import bisect
import collections

Left = collections.namedtuple("Left", "serial type body")
Got = collections.namedtuple("Got", "serial body")

# In the place of what was got: a receive that was under way.
LOST = None
# Behind all.
END = Got(float("inf"), "")


class Log:
    """The log of a worker and of those that followed it. A line has its mark at its end: one that a kill has cut short says nothing."""

    END = " ."

    @classmethod
    def spelt(cls, line):
        # (behind what was cut short a line begins anew)
        return f"\n{line}{cls.END}\n"

    def __init__(self, path):
        self.asked, self.sent = set(), {}  # bodies of sends; of those that were answered, with their serials
        self.got = []  # what receives were told, in order
        self.done, self.unsure = [], set()  # bodies that were acknowledged; of acknowledgements that were under way
        self.perhaps = self.lost = 0  # sends and receives that were under way
        self.codes = []  # refusals that no kill explains
        under_way = {}
        with open(path) as file:
            for line in file:
                if line.endswith(self.END + "\n"):
                    self.read(line.split()[:-1], under_way)
        self.let_go(under_way)

    def read(self, words, under_way):
        what, number, *rest = *words, None
        if what == "dials":
            self.let_go(under_way)
        elif what == "asks":
            under_way[number] = rest[0], rest[1]
            if rest[0] == "send":
                self.asked.add(rest[1])
        elif what == "code":
            self.codes.append(" ".join(words))
        else:
            asked, body = under_way.pop(number)
            if what == "told":
                self.told(asked, body, rest)

    def told(self, asked, body, rest):
        if asked == "send":
            self.sent[body] = int(rest[0])
        elif asked == "receive":
            self.got.append(Got(int(rest[0]), rest[1]))
        elif asked == "acknowledge":
            self.done.append(body)

    def let_go(self, under_way):
        """What was under way by a connection that has ended."""
        for asked, body in under_way.values():
            if asked == "send":
                self.perhaps += 1
            elif asked == "receive":
                self.lost += 1
                self.got.append(LOST)
            elif asked == "acknowledge":
                self.unsure.add(body)
        under_way.clear()


def receiver_of(body):
    return int(body.split(".")[0])


def repeated(them):
    return [it for it, count in collections.Counter(them).items() if count > 1]


def missed(sent, seen):
    """Serials of a worker's messages that it should have seen: of what was sent, those that it was not told and that are not there. Between two
    that it was told it may have missed as many as receives were under way there."""
    lacking = sorted({*sent} - {it.serial for it in seen if it is not LOST})
    found, before, spared = [], 0, 0
    for it in [*seen, END]:
        if it is LOST:
            spared += 1
            continue
        between = lacking[bisect.bisect(lacking, before):bisect.bisect(lacking, it.serial)]
        found += between if len(between) > spared else []
        before, spared = it.serial, 0
    return found


def taken_account(logs, left):
    """Of workers that receive, each by its type."""
    sent = {body: serial for it in logs.values() for body, serial in it.sent.items()}
    asked = set().union(*(it.asked for it in logs.values()))
    wrong = collections.defaultdict(list, {"other refusals": [it for log in logs.values() for it in log.codes]})
    bodies, lacking = [it.body for it in left], []
    for number, log in logs.items():
        there = [Got(it.serial, it.body) for it in left if it.type == 1 + number]
        seen = [it for it in [*log.got, *there] if it is not LOST]
        bodies += [it.body for it in log.got if it is not LOST]
        wrong["another's"] += [it for it in seen if receiver_of(it.body) != number]
        wrong["not in the order of their serials"] += [it for it, then in zip(seen, seen[1:]) if then.serial <= it.serial]
        wrong["another serial than the sender was told"] += [it for it in seen if sent.get(it.body, it.serial) != it.serial]
        lacking += missed([serial for body, serial in sent.items() if receiver_of(body) == number], [*log.got, *there])
    wrong["not sent"] = [it for it in bodies if it not in asked]
    wrong["more than once"] = repeated(bodies)
    wrong["serials that two senders were told"] = repeated(sent.values())
    wrong["answered, and neither received nor there"] = lacking
    return wrong


def kept_account(logs, left):
    """Of workers that reserve."""
    there = [it.body for it in left]
    done = [body for it in logs.values() for body in it.done]
    seen, unsure = {*done, *there}, set().union(*(it.unsure for it in logs.values()))
    asked = set().union(*(it.asked for it in logs.values()))
    return {
        "other refusals": [it for log in logs.values() for it in log.codes],
        "not sent": [it for it in [*done, *there] if it not in asked],
        "more than once": repeated([*done, *there]),
        "answered, and neither acknowledged nor there": [it for log in logs.values() for it in log.sent if it not in seen and it not in unsure],
    }
