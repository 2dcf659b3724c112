#!/usr/bin/env python3
"""Writes the site log that the gate runs, and what costs and sitelog have to print, as docs/RULES.md asks for.

Run it in the repository's root. It knows nothing of the Rattle code: the answers are a model's, made from the rules alone.

  crates/costs/{stdin,stdout}          a plan file, and the least cost of each pair
  crates/sitelog/{stdin,stdout,data}   a site log, its answers, and the plan files that it reads

Some things are free by the rules: which of several least routes a row tells, which of several failing stations and causes a test names, and
how many stations a run takes if that hangs on the order of stations at one rank. The model refuses to answer there, so no line of the log
asks for it.
"""
import pathlib
import random

from model import CAMPUS_H, CAMPUS_J, FAR, RANGES, TOP, ZERO, Free, Refused, join, least_costs, named_kind, parse_file, plan_file, told

NONE = 65535
WHITE = b" \t\r\f"  # white space of ASCII, but for byte 10, which ends a line


class NotUnderstood(Exception):
    """A line is no command."""


def rank(kind, stored):
    return FAR if kind == "split" and stored == 0 else stored


# Plans


class Plan:
    """A plan by the rules: its links, and the rows that are worked, of which the costs are the least."""

    def __init__(self, kind="sum", stations=0, places=0, links=()):
        self.kind, self.stations, self.places, self.links = kind, stations, places, list(links)
        self.rows = {}

    def need(self, *stations):
        if any(station >= self.stations for station in stations):
            raise Refused(3)

    def pairs(self):
        return {(a, b) for a, b, _ in self.links}

    def lay(self, a, b, cost):
        self.need(a, b)
        if a == b:
            raise Refused(4)
        if rank(self.kind, cost) in (ZERO[self.kind], FAR):
            raise Refused(5)
        if (a, b) in self.pairs():
            raise Refused(6)
        if len(self.links) >= self.places:
            raise Refused(7)
        self.links.append((a, b, cost))
        self.rows = {}

    def lift(self, a, b):
        self.need(a, b)
        if (a, b) not in self.pairs():
            raise Refused(8)
        self.links = [link for link in self.links if link[:2] != (a, b)]
        self.rows = {}

    def least(self, source):
        return least_costs(self.kind, self.stations, self.links, source)

    def work(self, source, method):
        self.need(source)
        if source in self.rows:
            raise Refused(9)
        costs = self.least(source)
        counts = {self.run(source, method, costs, random.Random(seed)) for seed in range(12)}
        if len(counts) > 1:
            raise Free
        taken = counts.pop()
        near = sum(cost < FAR for cost in costs)
        assert taken == near or method == "reuse" and 1 <= taken <= near
        self.rows[source] = costs
        return taken

    def run(self, source, method, costs, dice):
        """How many stations a run takes that ends with these costs; among those of the lowest rank the dice choose."""
        leaving = [[] for _ in range(self.stations)]
        for link in self.links:
            leaving[link[0]].append(link)
        label = [FAR] * self.stations
        first = [None] * self.stations
        label[source] = ZERO[self.kind]
        waits = {source: label[source]}
        taken = 0
        while waits:
            lowest = min(waits.values())
            t = dice.choice([s for s in sorted(waits) if waits[s] == lowest])
            del waits[t]
            taken += 1
            if method == "reuse" and t in self.rows:
                for v, cost in enumerate(self.rows[t]):
                    label[v] = min(label[v], join(self.kind, label[t], cost))
                    if v in waits:
                        waits[v] = min(waits[v], label[v])
                continue
            guide = self.rows.get(first[t]) if method == "prune" and t != source else None
            for _, b, cost in leaving[t]:
                offer = join(self.kind, label[t], cost)
                if (guide is None or join(self.kind, guide[t], cost) == guide[b] != FAR) and offer < label[b]:
                    label[b], first[b] = offer, b if t == source else first[t]
                    waits[b] = min(waits.get(b, FAR), offer)
        assert label == costs
        return taken

    def row(self, a, b):
        self.need(a, b)
        if a not in self.rows:
            raise Refused(10)
        return self.rows[a]

    def cost(self, a, b):
        return self.row(a, b)[b]

    def route(self, a, b, places):
        costs = self.row(a, b)
        if costs[b] == FAR:
            raise Refused(11)
        way = [b]
        while way[0] != a:
            last = [s for s, e, cost in self.links if e == way[0] and join(self.kind, costs[s], cost) == costs[e]]
            if len(last) != 1:
                raise Free
            way = last + way
        if len(way) > places:
            raise Refused(12)
        return way

    def check(self, a, row):
        self.need(a)
        if len(row) != self.stations:
            raise Refused(13)
        costs = [rank(self.kind, cost) for cost, _ in row]
        before = [p for _, p in row]
        link = {(s, e): cost for s, e, cost in self.links}
        failing = []
        for b in range(self.stations):
            p, given = before[b], before[b] != NONE
            over = join(self.kind, costs[p], link[p, b]) if given and (p, b) in link else None
            causes = {
                1: b == a and (costs[b] != ZERO[self.kind] or given),
                2: b != a and (costs[b] == FAR) == given,
                3: given and (p, b) not in link,
                4: over is not None and over != costs[b],
                5: any(e == b and join(self.kind, costs[s], cost) < costs[b] for s, e, cost in self.links),
            }
            failing += [(b, cause) for cause, fails in causes.items() if fails]
        if len(failing) > 1:
            raise Free
        if failing:
            raise Refused(14, *failing[0])

    def write(self):
        if self.stations == 0:
            raise Refused(1)
        low, high = RANGES[self.kind]
        for index, (_, _, cost) in enumerate(self.links):
            if not low <= cost <= high:
                raise Refused(21, index)
        return plan_file(self.kind, self.stations, self.links)


# The site log


def number(field, most):
    if not field or any(c not in "0123456789" for c in field) or int(field) > most:
        raise NotUnderstood
    return int(field)


def station(field):
    return number(field, 2**16 - 1)


def cost(field):
    return FAR if field == "far" else number(field, TOP)


def one_of(*words):
    def parse(field):
        if field not in words:
            raise NotUnderstood
        return field

    return parse


def cell(field):
    parts = field.split(":", 1)
    if len(parts) != 2:
        raise NotUnderstood
    return cost(parts[0]), NONE if parts[1] == "-" else station(parts[1])


KIND, METHOD, QUEUE, PATH = one_of("sum", "split"), one_of("plain", "reuse", "prune"), one_of("heap", "shelf"), str
SHAPES = {
    "make": [(KIND, station, station)],
    "read": [(PATH,)],
    "write": [(PATH,)],
    "lay": [(station, station, cost)],
    "lift": [(station, station)],
    "work": [(station, METHOD, QUEUE)],
    "cost": [(station, station)],
    "route": [(station, station), (station, station, station)],
    "table": [(METHOD, QUEUE)],
}


def parse(line):
    """The name of a call and its arguments, of a line's bytes."""
    try:
        name, *fields = line.decode().split(" ")
    except UnicodeDecodeError:
        raise NotUnderstood
    if name == "check" and fields:
        return name, [station(fields[0]), [cell(field) for field in fields[1:]]]
    for shape in SHAPES.get(name, []):
        if len(shape) == len(fields):
            return name, [part(field) for part, field in zip(shape, fields)]
    raise NotUnderstood


class Log:
    """Lines of the input, those of the output, both in bytes, and the plan that they leave."""

    def __init__(self, files):
        self.plan, self.files, self.lines, self.answers = Plan(), dict(files), [], []
        self.accepted = self.refused = self.not_understood = 0

    def answer_make(self, kind, stations, places):
        if stations not in range(1, 257):
            raise Refused(1)
        if places not in range(1, 4097):
            raise Refused(2)
        self.plan = Plan(kind, stations, places)
        return "accepted"

    def answer_read(self, path):
        if path not in self.files:
            raise NotUnderstood
        kind = named_kind(self.files[path])
        stations, links = parse_file(kind, self.files[path], 4096, (65536, 65536))
        self.plan = Plan(kind, stations, 4096, links)
        return f"accepted {kind} {stations} {len(links)}"

    def answer_write(self, path):
        data = self.plan.write()
        if "/" in path:
            raise NotUnderstood
        self.files[path] = data
        return f"accepted {len(data)}"

    def answer_lay(self, a, b, cost):
        self.plan.lay(a, b, cost)
        return "accepted"

    def answer_lift(self, a, b):
        self.plan.lift(a, b)
        return "accepted"

    def answer_work(self, source, method, queue):
        return f"accepted, taken {self.plan.work(source, method)}"

    def answer_cost(self, a, b):
        return told(self.plan.cost(a, b))

    def answer_route(self, a, b, places=None):
        return " ".join(map(str, self.plan.route(a, b, self.plan.stations if places is None else places)))

    def answer_check(self, source, row):
        self.plan.check(source, row)
        return "passed"

    def answer_table(self, method, queue):
        for source in range(self.plan.stations):
            self.plan.rows.setdefault(source, self.plan.least(source))
        return "\n".join(["accepted"] + [pair_line(a, b, c) for a, row in sorted(self.plan.rows.items()) for b, c in enumerate(row)])

    def answer(self, line):
        name, arguments = parse(line)
        return getattr(self, "answer_" + name)(*arguments)

    def say(self, line):
        """Adds a line, of text or bytes, with its answer; no line that has a free one."""
        if isinstance(line, str):
            line = line.encode()
        if not line.strip(WHITE) or line.startswith(b"#"):
            self.lines.append(line)
            self.answers.append(line)
            return
        try:
            text = self.answer(line)
            self.accepted += 1
        except Refused as refused:
            text = str(refused)
            self.refused += 1
        except NotUnderstood:
            text = "not understood"
            self.not_understood += 1
        self.lines.append(line)
        self.answers.append(line + f" -> {text}".encode())

    def say_all(self, text):
        """Lines, divided by semicolons."""
        for line in text.split(";"):
            self.say(line.strip())

    def note(self, words):
        self.say(f"# {words}")

    def say_by_chance(self, line):
        """Adds the line unless its answer is free."""
        try:
            self.say(line)
        except Free:
            pass

    def last_line(self):
        entries = self.accepted + self.refused + self.not_understood
        return f"entries {entries}, accepted {self.accepted}, refused {self.refused}, not understood {self.not_understood}".encode()


def pair_line(a, b, cost):
    return f"{a} {b} {told(cost)}"


# The plans of the log

OUTLETS = [(0, 1, 8), (0, 2, 64), (1, 3, 4), (2, 3, 2), (3, 4, 16), (4, 5, 2)]


def full_plan():
    """A plan of 256 stations and 4,096 links, at costs by chance."""
    dice = random.Random(4096)
    return [(k % 256, (k + 1 + k // 256) % 256, dice.randint(1, 1_000_000_000)) for k in range(4096)]


def files():
    h = plan_file("sum", 5, CAMPUS_H)
    faulty = lambda *link: plan_file("sum", 4, [(0, 1, 7), (1, 2, 7), (2, 3, 7), link])
    return {
        "campus_h.cpl": h,
        "campus_j.cpl": plan_file("sum", 8, CAMPUS_J),
        "outlets.cpl": plan_file("split", 6, OUTLETS),
        "full.cpl": plan_file("sum", 256, full_plan()),
        "empty.cpl": b"",
        "header.cpl": h[:9],
        "mark.cpl": plan_file("sum", 5, CAMPUS_H, mark=b"CPM"),
        "version.cpl": plan_file("sum", 5, CAMPUS_H, version=2),
        "kind.cpl": plan_file("sum", 5, CAMPUS_H, byte=2),
        "no_station.cpl": plan_file("sum", 0, []),
        "stations.cpl": plan_file("sum", 257, CAMPUS_H),
        "links.cpl": plan_file("sum", 5, CAMPUS_H, count=4097),
        "short.cpl": h[:-1],
        "long.cpl": h + b"\n",
        "field.cpl": faulty(3, 0, 1_000_000_001),
        "record.cpl": faulty(4, 0, 7),
        "self.cpl": faulty(3, 3, 7),
        "repeated.cpl": faulty(0, 1, 9),
        "split_field.cpl": plan_file("split", 3, [(0, 1, 1)]),
    }


def before_any(log):
    log.note("before any commissioning a plan has no station")
    log.say_all("lay 0 1 4; lift 0 1; work 0 plain heap; cost 0 0; route 0 0; route 0 0 0; check 0; check 0 0:-; write none.cpl; table plain heap")


def story(log):
    log.note("a site: five stations, and links as they are laid")
    log.say_all("make sum 5 16; ; lay 0 1 4; lay 0 2 1; lay 2 1 2; lay 1 3 5; lay 2 3 8")
    log.note("row 0 is not worked yet")
    log.say_all("cost 0 3; route 0 3; work 0 plain heap; cost 0 3; cost 0 4; route 0 3; route 0 0; route 0 4; route 0 3 4; route 0 3 3; work 0 prune shelf")
    log.note("a supplier's row, with a cheaper walk overlooked, and with a cost that its predecessor does not make")
    log.say_all("check 0 0:- 3:2 1:0 8:1 far:-; check 0 0:- 3:2 1:0 9:2 far:-; check 0 0:- 3:2 1:0 7:1 far:-; check 1 far:- 0:- far:- 5:1 far:-")
    log.note("each cause: the source, the predecessor, the link")
    log.say_all("check 4 far:- far:- far:- far:- 1:-; check 4 far:- far:- far:- far:1 0:-; check 3 far:- far:- far:- 0:- 7:3; check 3 far:- far:- far:- 0:- 7:65534")
    log.note("the link from 2 to 1 is lifted: row 0 is stale, and the supplier's row is wrong")
    log.say_all("lift 2 1; cost 0 3; route 0 3; check 0 0:- 3:2 1:0 8:1 far:-; work 0 plain shelf; cost 0 3; cost 0 1")
    log.note("it is laid again, at another cost")
    log.say_all("lay 2 1 1; work 2 plain heap; work 0 reuse heap; cost 0 3; route 0 3; route 2 3; table plain shelf; work 0 plain heap")


def refusals(log):
    log.note("refused commissionings leave the plan and its rows as they were")
    log.say_all("make sum 0 16; make sum 257 16; make split 65535 0; make sum 5 0; make sum 5 4097; make split 256 65535; cost 0 3; route 0 3")
    log.note("a link's refusals, in their order")
    log.say_all("lay 5 5 0; lay 1 5 0; lay 1 1 0; lay 0 1 0; lay 0 1 far; lay 3 0 18446744073709551615; lay 0 1 9; lay 2 1 far; cost 0 3")
    log.say_all("make sum 3 2; lay 0 1 1; lay 1 2 1; lay 1 2 1; lay 2 0 1; lift 1 2; lay 2 0 1")
    log.note("those of lifting, working, asking and testing")
    log.say_all("lift 3 0; lift 0 3; lift 0 2; lift 1 0; work 3 plain heap; work 65535 reuse shelf; work 0 plain heap; work 0 plain heap")
    log.say_all("cost 3 0; cost 0 3; cost 1 0; cost 0 2; route 3 0; route 0 3; route 1 0; route 0 2; route 0 1 1; route 0 1 2; route 0 1 0; route 0 1 65535")
    log.say_all("check 3 0:- 1:0 far:-; check 0; check 0 0:- 1:0; check 0 0:- 1:0 far:- far:-; check 0 0:- 1:0 far:-; check 2 1:0 2:0 0:-")
    log.note("costs at the end of the range, and joined beyond it")
    log.say_all("make sum 4 4; lay 0 1 18446744073709551614; lay 1 2 1; lay 2 3 18446744073709551613; work 0 prune heap; work 1 plain heap; cost 0 1; cost 0 2; cost 1 3; route 1 3; route 0 2")
    log.note("writing: a cost outside the link range, the first of two")
    log.say_all("write large.cpl; read large.cpl; lift 0 1; write large.cpl; lift 2 3; write small.cpl; read small.cpl; table reuse shelf")


def two_kinds(log):
    log.note("outlets: costs multiply, and a stored 0 is far")
    log.say_all("make split 4 6; lay 0 1 0; lay 0 1 1; lay 0 1 far; lay 0 1 8; lay 0 2 3; lay 2 1 2; lay 1 3 64; work 0 plain heap; cost 0 0; cost 0 1; cost 0 3")
    log.say_all("route 0 3; check 0 1:- 6:2 3:0 384:1; check 0 1:- 6:2 3:0 0:-; check 3 0:- 0:- 0:- 1:-; check 3 far:- 0:- 18446744073709551615:- 1:-")
    log.say_all("write outlets_4.cpl; lay 3 0 65; write outlets_4.cpl; read outlets_4.cpl; table prune heap")
    log.note("ten amplifiers of 64 outlets and eleven")
    log.say("make split 12 11")
    for k in range(11):
        log.say(f"lay {k} {k + 1} 64")
    log.say_all("work 0 plain shelf; cost 0 10; cost 0 11; work 1 reuse heap; cost 1 11; route 1 11")
    log.note("a plan of sums is read, and one of outlets")
    log.say_all("read campus_h.cpl; table plain heap; read outlets.cpl; table plain shelf; cost 0 5; write again.cpl")


def plan_files(log):
    log.note("campus J: many walks of one cost")
    log.say_all("read campus_j.cpl; work 0 plain heap; cost 0 5; lift 3 5; lay 3 5 1; work 1 plain shelf; work 0 prune shelf; cost 0 5; table reuse heap")
    log.note("files that are refused leave the plan as it was")
    for name in ("empty", "header", "mark", "version", "kind", "no_station", "stations", "links", "short", "long"):
        log.say(f"read {name}.cpl")
    for name in ("field", "record", "self", "repeated", "split_field"):
        log.say(f"read {name}.cpl")
    log.say_all("cost 0 5; read missing.cpl; cost 0 5; write no_folder/plan.cpl")
    log.note("a plan is written, read, changed and written again")
    log.say_all("read campus_h.cpl; write one.cpl; lift 0 2; write two.cpl; read two.cpl; work 0 plain heap; cost 0 3; read one.cpl; cost 0 3; work 0 plain heap; cost 0 3")


def large(log):
    log.note("256 stations, and 4,096 links")
    log.say_all("make sum 256 4096; lay 0 255 7; lay 255 128 9; lay 255 256 1; work 0 plain heap; cost 0 128; route 0 128; work 255 plain shelf; cost 255 0; route 255 128 2; write far_apart.cpl")
    log.say_all("read full.cpl; lay 0 40 1; work 0 plain heap; work 17 prune shelf; work 200 reuse heap; work 255 reuse shelf; work 100 prune heap")
    for a, b in ((0, 128), (0, 255), (17, 16), (200, 199), (255, 0), (100, 3)):
        log.say_all(f"cost {a} {b}; route {a} {b}")
    log.say_all("cost 1 0; lift 0 1; cost 0 128; lay 0 1 1; lay 0 40 1; work 0 plain shelf; cost 0 128; write full_too.cpl")


def no_commands(log):
    log.note("lines that are not understood change nothing")
    log.say("make sum 2 1")
    log.say("lay 0 1 5")
    log.say("work 0 plain heap")
    for line in (
        "hello", "Lay 0 1 5", "lay", "lay 0 1", "lay 0 1 5 6", " lay 0 1 5", "lay 0 1 5 ", "lay  0 1 5", "lay 0 1 -5", "lay 0 1 +5", "lay 0 1 0x5",
        "lay 0 1 FAR", "lay 0 1 18446744073709551616", "lay 65536 1 5", "lay zero 1 5", "lift 0", "lift 0 1 5", "work 0", "work 0 plain", "work 0 fast heap",
        "work 0 plain tree", "work 0 plain heap heap", "cost 0", "cost 0 1 2", "cost 0 -", "route 0", "route 0 1 65536", "route 0 1 2 3", "check",
        "check 0:- 5:0", "check 0 0:- 5", "check 0 0:- 5:0:1", "check 0 0:- :0", "check 0 0:- 5:", "check 0 -:- 5:0", "check 0 0:65536 5:0", "check 0 0:far 5:0",
        "make sum 2", "make max 2 1", "make sum 65536 1", "make sum 2 65536", "make sum 2 1 1", "read", "read a b", "write", "write a b", "table", "table plain",
        "table heap plain", "table plain heap shelf", "\tcost 0 1", "cost\t0\t1", "cost 0 1#",
    ):
        log.say(line)
    log.say_all("cost 0 1; cost 00 01; route 0 1; check 0 0:- 5:0; check 0 0:65535 5:0")
    log.say("   ")
    log.say("#cost 0 1")
    log.say("\t")


def cells(row, change=None):
    row = list(row)
    if change is not None:
        at, cost, before = change
        row[at] = (cost, before)
    return " ".join(f"{told(c)}:{'-' if p == NONE else p}" for c, p in row)


def right_row(plan, source, dice):
    """A right row, of which the dice choose the predecessors."""
    costs = plan.least(source)
    row = []
    for b, c in enumerate(costs):
        last = [s for s, e, link in plan.links if e == b and join(plan.kind, costs[s], link) == c]
        row.append((c, NONE if b == source or c == FAR else dice.choice(last)))
    return row


def by_chance(log):
    log.note("plans, rows and questions by chance")
    dice = random.Random(2718)
    for _ in range(12):
        kind, n = dice.choice(["sum", "split"]), dice.randint(2, 7)
        log.say(f"make {kind} {n} {dice.randint(1, 20)}")
        for _ in range(dice.randint(5, 14)):
            top = 30 if kind == "split" else dice.choice([10, 10**6, TOP])
            log.say(f"lay {dice.randrange(n)} {dice.randrange(n)} {dice.randint(0, top)}")
        for _ in range(14):
            one_by_chance(log, n, dice)


def one_by_chance(log, n, dice):
    a, b = dice.randrange(n), dice.randrange(n)
    method, queue = dice.choice(["plain", "reuse", "prune"]), dice.choice(["heap", "shelf"])
    row = right_row(log.plan, a, dice)
    at = dice.randrange(n)
    change = (at, dice.choice([row[at][0], dice.randint(0, 40), FAR]), dice.choice([row[at][1], dice.randrange(n), NONE]))
    log.say_by_chance(dice.choice([
        f"work {a} {method} {queue}", f"work {a} {method} {queue}", f"work {a} {method} {queue}", f"cost {a} {b}", f"route {a} {b}",
        f"check {a} {cells(row)}", f"check {a} {cells(row, change)}", f"check {a} {cells(row, change)}",
        dice.choice([f"lift {a} {b}", f"lay {a} {b} {dice.randint(1, 9)}", "write chance.cpl", f"route {a} {b} {dice.randrange(n)}"]),
    ]))


def odd_bytes(log):
    log.note("byte 10 alone ends a line: a byte 13 before it is white space in a blank line, and a part of the last field in another")
    log.say_all("make sum 2 2; lay 0 1 5; work 0 plain heap")
    for line in ("\r", " \t\f\r", "#\r", "lay 1 0 5\r", "lift 0 1\r", "cost 0 1\r", "cost 0\r 1", "\rcost 0 1", "cost 0 1\rcost 0 1", "read campus_h.cpl\r", "\v"):
        log.say(line)
    log.note("text that is no command: caf\u00e9")
    for line in ("caf\u00e9", "\ufeffcost 0 1", "cost\u00a00\u00a01", "cost 0 \uff11", "\u00a0", "\u2028", "read caf\u00e9.cpl", "read campus_h.cpl\0"):
        log.say(line)
    log.note("bytes that are not UTF-8")
    for line in (
        b"# caf\xe9", b"#\xff\x00\xfe\r", b"caf\xe9", b"\xff", b"cost 0 1\x80", b"cost 0 1 \xc3", b"lay 1 0 5\xff", b"lift 0 \xb1", b"cost \xc0\xb0 1", b"cost 0 1\xed\xa0\x80",
        b"read campus_h.cpl\xf5", b" \xa0\xe9", b" # caf\xe9",
    ):
        log.say(line)
    log.say("cost 0 1")


def main():
    root = pathlib.Path("crates")
    campus = Plan("sum", 5, 512, CAMPUS_H)
    pairs = [pair_line(a, b, c) for a in range(5) for b, c in enumerate(campus.least(a))]
    (root / "costs/stdin").write_bytes(plan_file("sum", 5, CAMPUS_H))
    (root / "costs/stdout").write_text("".join(line + "\n" for line in [f"sum 5 {len(CAMPUS_H)}"] + pairs))
    data = root / "sitelog/data"
    data.mkdir(exist_ok=True)
    for name, content in files().items():
        (data / name).write_bytes(content)
    log = Log(files())
    for part in (before_any, story, refusals, two_kinds, plan_files, large, no_commands, by_chance, odd_bytes):
        part(log)
    (root / "sitelog/stdin").write_bytes(b"".join(line + b"\n" for line in log.lines))
    (root / "sitelog/stdout").write_bytes(b"".join(line + b"\n" for line in log.answers + [log.last_line()]))


main()
