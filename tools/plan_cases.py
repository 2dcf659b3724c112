#!/usr/bin/env python3
"""Writes the table of plans and reports that the gate runs, with the answers that docs/RULES.md asks for.

Run it in the repository's root. It knows nothing of the Rattle code: the answers are a model's, made from the rules alone.

  crates/plan_cases/{stdin,stdout}   the cases, and their answers

Some things are free by the rules, as which of several least routes a row tells. The model does not answer there, so no line of the table asks
for it.
"""
import pathlib
import random

from model import CAMPUS_H, CAMPUS_J, FAR, RANGES, TOP, Free, Refused, join, least_costs, named_kind, parse_file, plan_file, told

OLD = 9
FREE = "free"
MOST_LINES = 40


def joined(lines):
    """The lines, or of many the first and the last."""
    if len(lines) <= MOST_LINES:
        return " | ".join(lines)
    return " | ".join(lines[:MOST_LINES] + [f".. {lines[-1]}, {len(lines)} lines"])


def account(data):
    kind = named_kind(data)
    try:
        stations, links = parse_file(kind, data, 4096, ())
    except Refused as refused:
        return str(refused)
    return joined([f"{kind} {stations} {len(links)}"] + [f"{a} {b} {cost}" for a, b, cost in links])


def report(data):
    kind = named_kind(data)
    try:
        stations, links = parse_file(kind, data, 512, (4096, 4096))
    except Refused as refused:
        return str(refused)
    lines = [f"{kind} {stations} {len(links)}"]
    for a in range(stations):
        lines += [f"{a} {b} {told(cost)}" for b, cost in enumerate(least_costs(kind, stations, links, a))]
    return joined(lines)


# Plans


class Plan:
    """A plan of sums by the rules, in memory of so many places and cells."""

    def __init__(self, places, costs, predecessors, reused=None):
        self.places, self.cells, self.reused = places, (costs, predecessors), reused
        self.stations, self.links, self.rows = 0, [], {}
        self.list, self.costs, self.predecessors = [(OLD,) * 3] * places, [OLD] * costs, [OLD] * predecessors

    def unwork(self):
        """Makes every row unworked."""
        self.rows = {}
        cells = self.stations**2
        self.costs[:cells] = [FAR] * cells
        self.predecessors[:cells] = ["-"] * cells

    def keep(self, links):
        """The links from now on, at the start of the list; the places after them hold what they held."""
        self.links = links
        self.list[: len(links)] = links

    # Commissioning and writing

    def make(self, stations):
        if stations not in range(1, 257):
            raise Refused(1)
        if self.cells != (stations**2,) * 2 or self.places not in range(1, 4097):
            raise Refused(2)
        self.stations = stations
        self.keep([])
        self.unwork()

    def read(self, data):
        self.stations, links = parse_file("sum", data, self.places, self.cells)
        self.keep(links)
        self.unwork()

    def write(self, room):
        if self.stations not in range(1, 257):
            raise Refused(1)
        data = plan_file("sum", self.stations, [(a, b, 0) for a, b, _ in self.links])
        if room < len(data):
            raise Refused(12)
        low, high = RANGES["sum"]
        for index, (_, _, cost) in enumerate(self.links):
            if not low <= cost <= high:
                raise Refused(21, index)
        return plan_file("sum", self.stations, self.links)

    # The six calls

    def need(self, *stations):
        if any(station >= self.stations for station in stations):
            raise Refused(3)

    def pairs(self):
        return [(a, b) for a, b, _ in self.links]

    def lay(self, a, b, cost):
        self.need(a, b)
        for number, fits in ((4, a == b), (5, cost in (0, FAR)), (6, (a, b) in self.pairs()), (7, len(self.links) >= self.places)):
            if fits:
                raise Refused(number)
        self.keep(self.links + [(a, b, cost)])
        self.unwork()

    def lift(self, a, b):
        self.need(a, b)
        if (a, b) not in self.pairs():
            raise Refused(8)
        self.keep([link for link in self.links if link[:2] != (a, b)])
        self.unwork()

    def work(self, source, method):
        """How many stations are taken; by reuse, where another row is worked, as many as are told by hand."""
        self.need(source)
        if source in self.rows:
            raise Refused(9)
        by_hand = method == "reuse" and bool(self.rows)
        if by_hand and self.reused is None:
            raise Free
        costs = least_costs("sum", self.stations, self.links, source)
        self.rows[source] = costs
        row = slice(source * self.stations, (source + 1) * self.stations)
        self.costs[row] = costs
        self.predecessors[row] = [self.predecessor(source, b) for b in range(self.stations)]
        return self.reused if by_hand else sum(cost < FAR for cost in costs)

    def predecessor(self, source, b):
        """The one station that may stand last before a station; a mark where it is free which one does."""
        costs = self.rows[source]
        if b == source or costs[b] == FAR:
            return "-"
        last = [s for s, e, cost in self.links if e == b and join("sum", costs[s], cost) == costs[e]]
        return last[0] if len(last) == 1 else FREE

    def cost(self, a, b):
        self.need(a, b)
        if a not in self.rows:
            raise Refused(10)
        return self.rows[a][b]

    def route(self, a, b, places):
        if self.cost(a, b) == FAR:
            raise Refused(11)
        way = [b]
        while way[0] != a:
            way = [self.predecessor(a, way[0])] + way
            if way[0] == FREE:
                raise Free
        if len(way) > places:
            raise Refused(12)
        return way

    def check(self, a):
        """The test of a row that has no place."""
        self.need(a)
        raise Refused(13)


# Entries and steps, as the lines tell them


def entry_answer(plan, words, part):
    """The answer to an entry; a route is written into its part of the pool."""
    name, *rest = words
    numbers = [int(word) if word.isdigit() else word for word in rest]
    try:
        value = getattr(plan, name)(*numbers)
    except Refused as refused:
        return str(refused)
    if name == "route":
        part[: len(value)] = value
        return f"stations {len(value)}"
    if name == "work":
        return f"taken {value}"
    return told(value) if name == "cost" else "accepted"


def answer_replay(plan, head, entries):
    answers, pool = ["-"] * int(head[0]), ["-"] * int(head[1])
    wanted = [int(words[3]) if words[0] == "route" else 0 for words in entries]
    if len(answers) < len(entries) or len(pool) < sum(wanted):
        text = str(Refused(12))
    else:
        text = "accepted"
        used = 0
        for index, (words, places) in enumerate(zip(entries, wanted)):
            part = pool[used : used + places]
            answers[index] = entry_answer(plan, words, part)
            pool[used : used + places] = part
            used += places
    return f"{text} [{', '.join(answers)}] [{' '.join(map(str, pool))}]"


def answer_write(plan, room):
    buffer = bytearray(b"\xff" * room)
    try:
        data = plan.write(room)
        buffer[: len(data)] = data
        text = f"accepted {len(data)}"
    except Refused as refused:
        text = str(refused)
    return f"{text} [{buffer.hex()}]"


def answer_rows(plan):
    return joined([f"{a} {b} {told(cost)}" for a, row in sorted(plan.rows.items()) for b, cost in enumerate(row)])


def answer_step(plan, step):
    head, *entries = [part.split(" ") for part in step.split(", ")]
    name, *rest = head
    try:
        if name == "make":
            plan.make(int(rest[0]))
        elif name == "read":
            plan.read(bytes.fromhex(rest[0]))
        elif name == "write":
            return answer_write(plan, int(rest[0]))
        elif name == "counts":
            return f"{plan.stations} {len(plan.links)}"
        elif name == "rows":
            return answer_rows(plan)
        elif name == "replay":
            return answer_replay(plan, rest, entries)
        else:
            raise ValueError(step)
    except Refused as refused:
        return str(refused)
    return "accepted"


# The table


class Table:
    def __init__(self):
        self.lines, self.answers = [], []

    def note(self, words):
        self.lines.append(f"# {words}")
        self.answers.append(f"# {words}")

    def plan(self, places, costs, predecessors, steps, reused=None):
        line = f"plan {places} {costs} {predecessors}; {steps}"
        lent = Plan(places, costs, predecessors, reused)
        answers = [answer_step(lent, step) for step in steps.split("; ")]
        self.say(line, "; ".join(answers))

    def memory(self, places, costs, predecessors, steps):
        line = f"memory {places} {costs} {predecessors}; {steps}"
        lent = Plan(places, costs, predecessors)
        for step in steps.split("; "):
            answer_step(lent, step)
        links = [" ".join(map(str, link)) for link in lent.list]
        held = [", ".join(links), " ".join(map(told, lent.costs)), " ".join(map(str, lent.predecessors))]
        self.say(line, " ".join(f"[{text}]" for text in held))

    def say(self, line, answer):
        if FREE in answer:
            raise Free
        self.lines.append(line)
        self.answers.append(f"{line}: {answer}")

    def account(self, data):
        self.say(f"account {data.hex()}", account(data))

    def report(self, data):
        self.say(f"report {data.hex()}", report(data))


ONE = plan_file("sum", 2, [(0, 1, 7)])
BOTH = plan_file("sum", 2, [(0, 1, 7), (1, 0, 9)])
WORKED = "make 3; replay 1 0, lay 0 1 7; replay 1 0, work 0 plain"
LOOK = "counts; rows; replay 3 2, cost 0 1, route 0 1 2, cost 1 0"


def read(data):
    return f"read {data.hex()}"


def new_plans(t):
    t.note("a new plan has no station, no link and no worked row, whatever it is lent")
    t.plan(0, 0, 0, "counts; rows; write 0; write 12")
    for lent in ((1, 1, 1), (3, 9, 9), (4097, 4, 4)):
        t.plan(*lent, "counts; rows; write 30; replay 6 1, lay 0 1 4, lift 0 1, work 0 plain, cost 0 0, route 0 0 1, check 0")


def makes(t):
    t.note("make, 1: no station, 257, 65,535; also where 2 would fit")
    for lent in ((4, 4, 4), (0, 4, 4), (4097, 4, 4), (0, 0, 0), (4, 66049, 66049)):
        t.plan(*lent, "make 0; make 257; make 65535; counts")
    t.note("make, 2: a list of no place, or of 4,097; 1 and 4,096 will do")
    for places in (0, 4097, 65536, 1, 4096):
        t.plan(places, 9, 9, "make 3; counts; write 12")
    t.note("make, 2: a table that is one cell short, or has one too many")
    for lent in ((4, 8, 9), (4, 10, 9), (4, 9, 8), (4, 9, 10), (4, 8, 8), (4, 10, 10), (4, 8, 10), (4, 0, 9), (4, 9, 0), (4, 0, 0)):
        t.plan(*lent, "make 3; counts")
    t.note("make, 2: tables for fewer stations, or for more")
    t.plan(4, 9, 9, "make 2; make 4; make 256; make 3; counts; make 2; counts")
    t.note("1 and 256 stations; 257 are refused in tables for them")
    t.plan(1, 1, 1, "make 1; counts; replay 4 1, lay 0 0 1, work 0 plain, cost 0 0, route 0 0 1; rows; write 10")
    t.plan(4096, 65536, 65536, "make 257; make 256; counts; replay 4 2, lay 255 254 7, work 255 plain, route 255 254 2, cost 255 0; make 255; counts; write 23")
    t.plan(4096, 65535, 65536, "make 256; counts")
    t.plan(4096, 65536, 65537, "make 256; counts")
    t.plan(4096, 66049, 66049, "make 257; make 256; counts")


def reads(t):
    two_bytes = b"\x00\x01"
    t.note("reading, 2: a list of no place, or of 4,097, whatever the file is; 1 and 4,096 will do")
    for places in (0, 4097):
        t.plan(places, 4, 4, f"{read(ONE)}; read ; {read(b'XPL')}; {read(ONE + two_bytes)}; counts")
    for places in (1, 4096):
        t.plan(places, 4, 4, f"{read(ONE)}; counts; write 23")
    t.note("reading, 15 to 18: shorter than a header, another mark, version, kind byte")
    for data in (b"", ONE[:1], ONE[:9]):
        t.plan(4, 4, 4, f"{read(data)}; counts")
    for data in (plan_file("sum", 2, [], mark=m) for m in (b"DPL", b"CQL", b"CPM", b"cpl")):
        t.plan(4, 4, 4, f"{read(data)}; counts")
    for data in (plan_file("sum", 2, [], version=v) for v in (0, 2, 256, 257)):
        t.plan(4, 4, 4, f"{read(data)}; counts")
    for data in (plan_file("sum", 2, [], byte=b) for b in (1, 2, 255)):
        t.plan(4, 4, 4, f"{read(data)}; counts")
    t.note("reading, 19: no station, 257, more links than places, more cells than either table has")
    for stations in (0, 257, 65535):
        t.plan(4, 66049, 66049, f"{read(plan_file('sum', stations, []))}; counts")
    t.plan(1, 4, 4, f"{read(BOTH)}; {read(ONE)}; counts")
    t.plan(4096, 4, 4, f"{read(plan_file('sum', 2, [], count=4097))}; {read(plan_file('sum', 2, [], count=4096))}; counts")
    for lent in ((4, 3, 4), (4, 4, 3), (4, 0, 4), (4, 4, 0), (4, 3, 9), (4, 9, 3)):
        t.plan(*lent, f"{read(ONE)}; counts")
    t.plan(4, 65535, 65536, f"{read(plan_file('sum', 256, [(255, 0, 7)]))}; {read(plan_file('sum', 255, [(254, 0, 7)]))}; counts")
    t.plan(4, 65536, 65536, f"{read(plan_file('sum', 256, [(255, 0, 7)]))}; counts; replay 3 2, work 255 plain, route 255 0 2, cost 255 1")
    t.note("reading, 20: a byte short, a byte long, a record too few, a record too many")
    for data in (ONE[:-1], ONE + b"\x00", ONE + b"\n", ONE[:10], plan_file("sum", 2, [(0, 1, 7)], count=2), plan_file("sum", 2, [(0, 1, 7)], count=0)):
        t.plan(4, 4, 4, f"{read(data)}; counts")
    t.note("reading, 22: the first record at fault, by 21, 3, 4, 6")
    for link in ((0, 1, 0), (0, 1, 1_000_000_001), (0, 1, TOP), (3, 0, 7), (0, 3, 7), (1, 1, 7), (1, 2, 9), (2, 2, 0), (7, 7, 7), (1, 2, 0)):
        t.plan(4, 9, 9, f"{read(plan_file('sum', 3, [(1, 2, 7), link]))}; counts")
    t.plan(4, 9, 9, f"{read(plan_file('sum', 3, [(0, 0, 7), (0, 1, 0)]))}; {read(plan_file('sum', 3, [(0, 1, 7), (0, 1, 0), (5, 5, 5)]))}; counts")
    t.note("two faults at once: the lower number answers")
    t.plan(4, 4, 4, f"{read(plan_file('sum', 0, [], mark=b'XPL', version=2, byte=1))}; {read(plan_file('sum', 0, [], version=2, byte=1))}")
    t.plan(4, 4, 4, f"{read(plan_file('sum', 0, [], byte=1))}; {read(plan_file('sum', 257, [(0, 1, 0)]) + two_bytes)}; {read(plan_file('sum', 2, [(0, 1, 0)])[:-1])}")
    t.plan(4, 3, 4, f"{read(ONE[:-1])}; {read(plan_file('sum', 2, [(0, 0, 0)]))}; {read(plan_file('sum', 1, [(0, 0, 0)]))}; counts")
    t.note("tables and a list that are larger than needed: the plan works in the first of their cells")
    for lent in ((4, 100, 16), (4, 16, 100), (4096, 17, 17), (4, 65537, 70000)):
        t.plan(*lent, f"{read(plan_file('sum', 4, [(0, 3, 7), (3, 2, 1)]))}; counts; replay 4 3, work 0 plain, route 0 2 3, work 3 prune, cost 3 1; rows; write 35")


def commissioned_again(t):
    repeated = plan_file("sum", 3, [(0, 1, 7), (0, 1, 7)])
    t.note("refused commissionings leave stations, links and worked rows as they were")
    for refused in ("make 0", "make 257", "make 2", "make 4", read(b""), read(plan_file("sum", 3, [(2, 0, 1)], mark=b"CPM")), read(plan_file("sum", 3, [], version=2)),
                    read(plan_file("split", 3, [])), read(plan_file("sum", 4, [])), read(plan_file("sum", 2, [(0, 1, 1)], count=3)), read(ONE + b"\x00"), read(repeated)):
        t.plan(2, 9, 9, f"{WORKED}; {refused}; {LOOK}; write 22")
    t.plan(2, 9, 9, f"{WORKED}; make 0; {read(repeated)}; make 2; {LOOK}; replay 4 2, work 0 plain, work 1 plain, lay 2 0 1, lay 1 2 1")
    t.note("a refused commissioning of a new plan leaves it without a station")
    t.plan(2, 9, 9, f"{read(repeated)}; make 4; counts; rows; write 10; {WORKED}; {LOOK}")
    t.note("a plan is made again: its links are gone, and no row is worked")
    t.plan(2, 9, 9, f"{WORKED}; make 3; counts; rows; replay 6 2, cost 0 1, route 0 1 2, lift 0 1, work 0 plain, cost 0 1, lay 0 1 3; replay 2 0, work 0 plain, cost 0 1; write 22")
    t.note("a list that was full has room again")
    t.plan(1, 9, 9, f"{WORKED}; replay 1 0, lay 1 2 1; make 3; replay 3 0, lay 1 2 1, lay 0 1 1, work 1 plain; rows; write 22")
    t.note("a plan is read again: the new file's links, and no row is worked")
    again = plan_file("sum", 3, [(1, 0, 5), (2, 0, 2)])
    t.plan(2, 9, 9, f"{WORKED}; {read(again)}; counts; rows; replay 6 2, cost 0 1, route 0 1 2, lift 0 1, work 0 plain, cost 0 1, work 2 plain; rows; write 34")
    t.plan(2, 9, 9, f"{WORKED}; {read(again)}; replay 2 0, lay 0 1 4, lift 1 0; replay 1 0, lay 0 1 4; write 34")
    t.plan(2, 9, 9, f"{read(again)}; replay 1 0, work 2 plain; {read(again)}; rows; replay 1 0, work 2 plain; rows; make 3; counts; write 11")
    t.note("read with fewer stations, then with more, then made with as many as the tables have")
    t.plan(2, 16, 16, f"{read(plan_file('sum', 4, [(0, 3, 7), (3, 0, 1)]))}; replay 2 0, work 0 plain, work 3 plain; rows; {read(ONE)}; counts; replay 4 2, cost 0 1, work 0 plain, work 3 plain, route 0 1 2; rows; "
                    f"{read(plan_file('sum', 3, [(2, 1, 8)]))}; replay 2 0, work 2 plain, work 0 plain; rows; make 4; counts; replay 1 0, work 3 plain; rows")


def writes(t):
    t.note("writing, 1: no station, before 12")
    t.plan(2, 9, 9, "write 0; write 9; write 10; write 22")
    t.note("writing, 12: a byte short; just enough, and bytes after the file that stay")
    t.plan(2, 9, 9, "make 3; write 0; write 9; write 10; write 13; replay 1 0, lay 0 1 7; write 10; write 21; write 22; write 25; replay 1 0, lay 2 1 1000000000; write 33; write 34")
    t.note("writing, 21: a cost outside the link range, and the first of two; 12 before 21")
    t.plan(3, 9, 9, "make 3; replay 1 0, lay 0 1 1000000001; write 22; write 21; write 30")
    t.plan(3, 9, 9, "make 3; replay 3 0, lay 0 1 1, lay 1 2 18446744073709551614, lay 2 0 1000000001; write 45; write 46; replay 1 0, lift 1 2; write 33; write 34; replay 1 0, lift 2 0; write 22")
    t.note("a file that is read is written back, and what is written is read")
    for data, lent in ((ONE, (4, 4, 4)), (BOTH, (2, 4, 4)), (plan_file("sum", 5, CAMPUS_H), (5, 25, 25)), (plan_file("sum", 8, CAMPUS_J), (12, 64, 99)), (plan_file("sum", 256, []), (1, 65536, 65536))):
        t.plan(*lent, f"{read(data)}; write {len(data)}; write {len(data) - 1}; {read(data)}; counts; write {len(data) + 2}")
    laid = plan_file("sum", 3, [(2, 0, 1000000000), (0, 2, 1)])
    t.plan(2, 9, 9, f"make 3; replay 4 0, lay 1 2 5, lay 2 0 1000000000, lift 1 2, lay 0 2 1; write 34; {read(laid)}; counts; write 34")


def replays(t):
    t.note("an empty replay")
    t.plan(1, 4, 4, "replay 0 0; replay 2 3; make 2; replay 0 0; replay 2 3; counts")
    t.note("replaying, 12: an answer too few; nothing is run")
    for answers in (0, 1, 2):
        t.plan(2, 9, 9, f"make 3; replay {answers} 5, lay 0 1 7, work 0 plain, cost 0 1; {LOOK}")
    t.plan(2, 9, 9, f"{WORKED}; replay 1 5, lift 0 1, route 0 1 2; {LOOK}")
    t.note("replaying, 12: a place of the pool too few; nothing is run")
    for pool in (0, 1, 4):
        t.plan(2, 9, 9, f"make 3; replay 9 {pool}, lay 0 1 7, work 0 plain, route 0 1 2, route 0 0 1, route 0 1 2; {LOOK}")
    t.plan(2, 9, 9, f"{WORKED}; replay 4 9, lift 0 1, route 0 1 10; replay 4 9, lift 0 1, route 0 1 65535; {LOOK}")
    t.plan(2, 9, 9, f"{WORKED}; replay 0 0, route 0 1 65535, route 0 1 65535; {LOOK}")
    t.note("just enough of both, and more: what is after stays")
    for answers, pool in ((5, 5), (7, 5), (5, 8), (6, 6)):
        t.plan(2, 9, 9, f"make 3; replay {answers} {pool}, lay 0 1 7, work 0 plain, route 0 1 2, route 0 0 1, route 0 1 2; {LOOK}")
    t.note("each route has its own part of the pool; one that is too short, or has no answer, leaves it as it was")
    h = read(plan_file("sum", 5, CAMPUS_H))
    t.plan(5, 25, 25, f"{h}; replay 6 18, work 0 plain, route 0 3 4, route 0 3 3, route 0 3 5, route 0 4 4, route 0 0 2")
    t.plan(5, 25, 25, f"{h}; replay 8 12, work 0 plain, route 0 3 3, route 0 1 2, route 0 1 3, route 0 2 1, route 0 2 2, route 0 0 0, route 0 0 1")
    t.plan(5, 25, 25, f"{h}; replay 7 9, route 0 3 4, route 9 3 1, work 0 prune, route 0 3 4, lift 2 1, route 0 3 0, cost 0 3")
    t.note("refused entries change nothing, and those after them are run")
    t.plan(2, 9, 9, "make 3; replay 14 4, lay 3 0 1, lay 0 0 1, lay 0 1 0, lay 0 1 18446744073709551615, lay 0 1 7, lay 0 1 7, lay 1 2 1, lay 2 0 1, lift 2 0, work 0 plain, work 0 plain, cost 0 2, check 3, check 0; rows")
    t.plan(2, 9, 9, "make 3; replay 14 6, cost 0 0, route 0 0 1, work 3 plain, lay 0 1 7, work 0 plain, route 0 2 3, cost 0 3, cost 3 0, lift 1 0, cost 0 1, lift 0 1, cost 0 1, work 0 plain, route 0 1 2; rows")
    t.note("the methods, one row by each")
    t.plan(5, 25, 25, f"{h}; replay 5 0, work 0 reuse, work 1 prune, work 2 plain, work 4 prune, cost 0 3; rows; replay 3 4, route 0 3 4, lift 0 2, work 0 reuse; rows")
    t.note("reuse takes 0, 2 and 1 on campus H with row 2 worked, and 0, 1 and 2 on campus J with rows 1 and 2; prune takes all that are reached")
    j = read(plan_file("sum", 8, CAMPUS_J))
    for method in ("reuse", "prune"):
        t.plan(5, 25, 25, f"{h}; replay 2 0, work 2 plain, work 0 {method}; rows", reused=3)
        t.plan(10, 64, 64, f"{j}; replay 3 0, work 1 plain, work 2 plain, work 0 {method}; rows", reused=3)
    t.note("calls on a plan that has no station")
    t.plan(2, 9, 9, "replay 6 3, lay 0 1 4, lift 0 1, work 0 plain, cost 0 0, route 0 0 3, check 0; replay 1 0, route 0 0 1; counts")


def memories(t):
    t.note("a new plan changes nothing of what it is lent, and neither does a refused call on it")
    h, repeated = plan_file("sum", 5, CAMPUS_H), plan_file("sum", 3, [(0, 1, 7), (1, 2, 7), (0, 1, 7)])
    t.memory(0, 0, 0, "counts")
    for steps in ("counts", "make 0; make 2; make 257", f"{read(b'')}; {read(repeated)}; {read(h)}", "write 40; replay 6 1, lay 0 1 4, lift 0 1, work 0 plain, cost 0 0, route 0 0 1, check 0"):
        t.memory(3, 9, 9, steps)
    t.note("make clears the cells, and lets the list be; reading clears the first cells, and fills the first places")
    t.memory(3, 9, 9, "make 3")
    t.memory(3, 9, 9, f"make 3; {read(repeated)}; make 2")
    t.memory(3, 11, 13, read(plan_file("sum", 3, [(2, 0, 5), (0, 1, 7)])))
    t.memory(2, 6, 5, f"{read(ONE)}; {read(BOTH)}; make 2")
    t.memory(4, 9, 9, f"{read(plan_file('sum', 3, [(0, 1, 7), (1, 2, 8), (2, 0, 9)]))}; {read(ONE)}; make 3")
    t.note("rows stand one after the other, each with n cells; an unworked one has far and no predecessor throughout")
    t.memory(6, 25, 27, f"{read(h)}; replay 2 0, work 0 plain, work 2 prune")
    t.memory(5, 30, 25, f"{read(h)}; replay 5 0, work 0 plain, work 1 plain, work 4 plain, work 3 prune, work 2 prune")
    t.memory(2, 16, 17, f"{read(plan_file('sum', 4, [(3, 1, 5), (1, 0, 1)]))}; replay 1 0, work 3 plain; {read(ONE)}; replay 1 0, work 1 plain")
    t.memory(2, 16, 17, f"{read(plan_file('sum', 4, [(3, 1, 5), (1, 0, 1)]))}; replay 1 0, work 3 plain; {read(ONE)}; replay 1 0, work 0 plain; {read(repeated)}")
    t.note("lay fills one place, lift moves the links after it down by one; the place that becomes free stays; each row is unworked then")
    t.memory(4, 9, 9, "make 3; replay 4 0, lay 0 1 7, work 0 plain, lay 1 2 1000000001, work 1 plain")
    t.memory(4, 9, 9, "make 3; replay 4 0, lay 0 1 7, work 0 plain, lay 1 2 8, lay 2 0 3")
    for lifted in ("0 1", "1 2", "2 0", "1 0"):
        t.memory(4, 9, 9, f"make 3; replay 5 0, lay 0 1 7, lay 1 2 8, lay 2 0 3, work 1 plain, lift {lifted}; replay 1 0, work 0 plain")
    t.memory(4, 9, 9, "make 3; replay 7 0, lay 0 1 7, lay 1 2 8, lay 2 0 3, lift 1 2, lift 0 1, lay 2 1 6, work 2 plain")
    t.note("a refused call leaves it as it was")
    for refused in ("make 0", "make 2", read(repeated), read(h), "replay 7 0, lay 0 1 8, lay 2 2 1, lift 1 0, work 0 plain, cost 0 3, check 0, check 3", "replay 0 0, lift 0 1", "replay 2 0, lift 0 1, route 0 1 2", "write 21"):
        t.memory(2, 9, 9, f"{WORKED}; {refused}")


# The worked campuses: the calls, and of the supplier's row the answer that is worked out by hand. Row 4 is worked by reuse, of which
# the model does not tell how many are taken; station 4 reaches only itself, so that it is one by each method.
CALLS_ON_H = [f"lay {a} {b} {cost}" for a, b, cost in CAMPUS_H] + ["work 0 plain", "work 4 prune"] + [f"cost 0 {b}" for b in range(5)]
CALLS_ON_H += ["route 0 3 5", "route 0 3 3", "cost 4 4", "route 4 4 1"]
SUPPLIED = "refused 14 3 5"
CALLS_ON_J = [f"lay {a} {b} {cost}" for a, b, cost in CAMPUS_J] + ["work 1 plain", "work 2 plain", "work 0 prune", "cost 0 5"]
JOINS = [TOP - 1, FAR, TOP - 1, FAR, 64**10, FAR]


def answers_on(links, stations, calls, pool):
    """The answers to the calls, and what is left in the pool, which held 0."""
    plan = Plan(len(links), stations**2, stations**2)
    plan.make(stations)
    told_all, used = [], 0
    for words in (call.split(" ") for call in calls):
        places = int(words[3]) if words[0] == "route" else 0
        part = pool[used : used + places]
        told_all.append(entry_answer(plan, words, part))
        pool[used : used + places] = part
        used += places
    return told_all


def worked_campuses(t):
    t.note("both worked campuses, with each queue")
    pool = [0] * 9
    on_h = answers_on(CAMPUS_H, 5, CALLS_ON_H, pool) + [SUPPLIED]
    on_j = answers_on(CAMPUS_J, 8, CALLS_ON_J, [])
    for queue in ("shelf", "heap"):
        t.say(f"campuses {queue}", f"[{', '.join(on_h)}] [{' '.join(map(str, pool))}] [{', '.join(on_j)}] [{' '.join(map(told, JOINS))}]")
    t.note("256 stations are made, and 257 refused; a cost of 1,000,000,000 is read, and one more refused")
    t.plan(1, 65536, 65536, "make 256; make 257; counts")
    t.plan(1, 4, 4, f"{read(plan_file('sum', 2, [(0, 1, 1_000_000_000)]))}; {read(plan_file('sum', 2, [(0, 1, 1_000_000_001)]))}; write 22")


def by_chance(t):
    t.note("plans by chance")
    dice = random.Random(3141)
    wanted = 40
    while wanted > 0:
        side, places = dice.choice([2, 3, 3, 4]), dice.randint(2, 6)
        more = (0, 0) if dice.random() < 0.7 else (dice.randint(0, 9), dice.randint(0, 9))
        steps = [first_by_chance(dice, side), log_by_chance(dice, side), other_by_chance(dice, side), log_by_chance(dice, side)]
        try:
            dice.choice([t.plan, t.plan, t.memory])(places, side**2 + more[0], side**2 + more[1], "; ".join(steps))
            wanted -= 1
        except Free:
            pass


def first_by_chance(dice, side):
    return dice.choice([f"make {side}", file_by_chance(dice, side), file_by_chance(dice, side)])


def file_by_chance(dice, side):
    """A file, mostly sound, and sometimes with a byte changed."""
    stations = dice.choice([side, side, side, dice.randint(1, 5)])
    pairs = [(a, b) for a in range(stations) for b in range(stations) if a != b]
    dice.shuffle(pairs)
    data = bytearray(plan_file("sum", stations, [(a, b, dice.choice([1, 2, 5, 1_000_000_000])) for a, b in pairs[: dice.randint(0, 5)]]))
    if dice.random() < 0.25:
        data[dice.randrange(len(data))] = dice.choice([0, 1, 2, 255])
    return read(data)


def other_by_chance(dice, side):
    return dice.choice([first_by_chance(dice, side), f"write {dice.choice([22, 33, 34, 47, 60])}", "counts", "rows"])


def log_by_chance(dice, side):
    """A replay: links that are laid or lifted, rows that are worked, and questions."""
    station = lambda: dice.randrange(side) if dice.random() < 0.95 else side
    lay = lambda: f"lay {station()} {station()} {dice.choice([1, 2, 3, 5, 9, 10**9, 10**9 + 1, 0, TOP - 1])}"
    work = lambda: f"work {station()} {dice.choice(['plain', 'plain', 'prune', 'reuse'])}"
    question = lambda: dice.choice([f"cost {station()} {station()}", f"route {station()} {station()} {dice.choice([0, 1, 2, 3, 3, 4])}"])
    entries = [lay() for _ in range(dice.randint(0, 3))] + [f"lift {station()} {station()}"] * dice.randint(0, 1)
    entries += [work() for _ in range(dice.randint(1, 2))] + [question() for _ in range(dice.randint(1, 4))]
    wanted = sum(int(entry.split(" ")[3]) for entry in entries if entry.startswith("route"))
    answers, pool = (most + dice.choice([0, 0, 0, 1, 1, -1]) for most in (len(entries), wanted + 1))
    return f"replay {answers} {pool}, {', '.join(entries)}"


def ring(stations, count, cost):
    """So many links, no pair twice: each station to the next, then to the one after it, and so on."""
    return [(k % stations, (k + 1 + k // stations) % stations, cost) for k in range(count)]


def row_of(count):
    """So many links of 64 outlets in a row."""
    return plan_file("split", count + 1, [(k, k + 1, 64) for k in range(count)])


def accounts(t):
    t.note("accounts: one link, a refused file, and as many links as a file may have")
    t.account(ONE)
    t.account(plan_file("split", 3, [(0, 1, 2), (1, 2, 64), (2, 0, 8)]))
    t.account(plan_file("sum", 3, [(0, 1, 7), (1, 2, 7), (0, 1, 7)]))
    t.account(plan_file("sum", 256, ring(256, 4096, 9)))
    t.account(plan_file("sum", 256, ring(256, 4097, 9)))


def reports(t):
    t.note("reports: one link, in both kinds; one station; no link")
    t.report(bytes([67, 80, 76, 0, 1, 0, 0, 2, 0, 1, 0, 0, 0, 1, 0, 0, 0, 0, 0, 0, 0, 7]))
    for kind in ("sum", "split"):
        for stations, links in ((2, [(0, 1, 7)]), (2, [(0, 1, 7), (1, 0, 9)]), (1, []), (3, [])):
            t.report(plan_file(kind, stations, links))
    t.note("campus H and campus J, and the same as outlets")
    t.report(plan_file("sum", 5, CAMPUS_H))
    t.report(plan_file("sum", 8, CAMPUS_J))
    t.report(plan_file("split", 8, [(a, b, cost + 1) for a, b, cost in CAMPUS_J]))
    t.report(plan_file("split", 6, [(0, 1, 8), (0, 2, 64), (1, 3, 4), (2, 3, 2), (3, 4, 16), (4, 5, 2)]))
    t.note("ten links of 64 outlets in a row, and eleven")
    t.report(row_of(10))
    t.report(row_of(11))
    t.note("the ends of both link ranges")
    t.report(plan_file("sum", 3, [(0, 1, 1), (1, 2, 1_000_000_000)]))
    t.report(plan_file("split", 3, [(0, 1, 2), (1, 2, 64)]))
    for kind, cost in (("sum", 0), ("sum", 1_000_000_001), ("sum", TOP), ("split", 0), ("split", 1), ("split", 65), ("split", TOP)):
        t.report(plan_file(kind, 3, [(0, 1, 7), (1, 2, cost)]))
    t.note("15 to 17, in both kinds; a kind byte that is missing")
    for kind in ("sum", "split"):
        whole = plan_file(kind, 2, [(0, 1, 7)])
        for data in (whole[:9], plan_file(kind, 2, [], mark=b"CPM"), plan_file(kind, 2, [], version=256)):
            t.report(data)
    for data in (b"", ONE[:5], ONE[:6]):
        t.report(data)
    t.note("18: a kind byte that names no kind")
    for byte in (2, 128, 255):
        t.report(plan_file("sum", 2, [(0, 1, 7)], byte=byte))
    t.note("20: a byte short, a byte long; 22: each fault, and the first record at fault")
    for kind in ("sum", "split"):
        whole = plan_file(kind, 2, [(0, 1, 7)])
        for data in (whole[:-1], whole + b"\n", plan_file(kind, 2, [], count=1), plan_file(kind, 2, [(0, 1, 7)], count=0)):
            t.report(data)
        for links in ([(0, 1, 7), (3, 0, 7)], [(0, 3, 7)], [(0, 1, 7), (1, 2, 7), (2, 2, 7)], [(0, 1, 7), (1, 0, 7), (0, 1, 8)], [(0, 1, 7), (9, 9, 0)], [(0, 1, 7), (1, 1, 7), (0, 2, 0)]):
            t.report(plan_file(kind, 3, links))
    t.note("19: no station, 64 stations will do, 65 will not, 257")
    for kind in ("sum", "split"):
        for stations in (0, 64, 65, 257):
            t.report(plan_file(kind, stations, [(0, 63, 7)]))
    t.note("19: 512 links of 64 stations will do, 513 will not")
    t.report(plan_file("sum", 64, ring(64, 512, 3)))
    t.report(plan_file("sum", 64, ring(64, 513, 3)))
    t.report(plan_file("split", 2, [], count=512))
    t.report(plan_file("split", 2, [], count=513))


def main():
    table = Table()
    for part in (new_plans, makes, reads, commissioned_again, writes, replays, memories, worked_campuses, by_chance, accounts, reports):
        part(table)
    root = pathlib.Path("crates/plan_cases")
    (root / "stdin").write_text("".join(line + "\n" for line in table.lines))
    (root / "stdout").write_text("".join(line + "\n" for line in table.answers))


main()
