#!/usr/bin/env python3
"""Writes the example plans and the table of plan file cases, with the answers that docs/RULES.md asks for.

Run it in the repository's root. It knows nothing of the Rattle code: files and answers are made from the rules alone.

  examples/*.cpl                     plan files to try the programs on
  crates/links/{stdin,stdout}        the campus, and its account
  crates/file_cases/{stdin,stdout}   the cases, and their answers
"""
import pathlib
import random

from model import BYTES, CAMPUS_H, RANGES, TOP, plan_file as plan


def faults_of(kind, stations, links):
    """Every fault of every record, the first record first and its faults in the order in which they are tried."""
    low, high = RANGES[kind]
    pairs = set()
    for index, (a, b, cost) in enumerate(links):
        if cost < low or cost > high:
            yield f"refused 22 {index} 21 field"
        if max(a, b) >= stations:
            yield f"refused 22 {index} 3 record"
        if a == b:
            yield f"refused 22 {index} 4 record"
        if (a, b) in pairs:
            yield f"refused 22 {index} 6 record"
        pairs.add((a, b))


def parse(data):
    """Counts and records of a file that is long enough for them."""
    stations, count = int.from_bytes(data[6:8], "big"), int.from_bytes(data[8:10], "big")
    rows = [data[10 + 12 * k : 22 + 12 * k] for k in range(count)]
    big = lambda part: int.from_bytes(part, "big")
    return stations, count, [(big(r[:2]), big(r[2:4]), big(r[4:])) for r in rows]


def answer_read(kind, places, data):
    if places not in range(1, 4097):
        return "refused 2"
    if len(data) < 10:
        return "refused 15"
    if data[:3] != b"CPL":
        return "refused 16"
    if data[3:5] != b"\x00\x01":
        return "refused 17"
    if data[5] != BYTES[kind]:
        return "refused 18"
    stations, count, links = parse(data)
    if stations not in range(1, 257) or count > places:
        return "refused 19"
    if len(data) != 10 + 12 * count:
        return "refused 20"
    return next(faults_of(kind, stations, links), f"ok {stations} {count} true")


def answer_write(kind, stations, room, links):
    old = b"\xee" * room
    if any(kind == "split" and cost == 0 for _, _, cost in links):
        return "refused 21"
    low, high = RANGES[kind]
    file = plan(kind, stations, links)
    out = [k for k, (_, _, cost) in enumerate(links) if not low <= cost <= high]
    if stations not in range(1, 257):
        return f"refused 1 {old.hex()}"
    if len(links) > 4096:
        return f"refused 2 {old.hex()}"
    if room < len(file):
        return f"refused 12 {old.hex()}"
    if out:
        return f"refused 21 {out[0]} {old.hex()}"
    return f"ok {len(file)} {(file + old[len(file):]).hex()}"


def answer_form(kind, number):
    if kind == "split" and number == 0:
        return "refused 21"
    return f"ok {number} {'true' if number == TOP else 'false'}"


def ring(stations, count, cost):
    """So many links, no pair twice: each station to the next, then to the one after it, and so on."""
    return [(k % stations, (k + 1 + k // stations) % stations, cost) for k in range(count)]


class Table:
    def __init__(self):
        self.lines, self.answers = [], []

    def note(self, words):
        self.lines.append(f"# {words}")
        self.answers.append(f"# {words}")

    def read(self, kind, data, places=4096):
        self.lines.append(f"read {kind} {places} {data.hex()}")
        self.answers.append(answer_read(kind, places, data))

    def write(self, kind, stations, room, links):
        text = ",".join(f"{a}-{b}-{c}" for a, b, c in links) or "none"
        self.lines.append(f"write {kind} {stations} {room} {text}")
        self.answers.append(answer_write(kind, stations, room, links))

    def form(self, kind, number):
        self.lines.append(f"form {kind} {number}")
        self.answers.append(answer_form(kind, number))

    def line(self, words, answer):
        self.lines.append(words)
        self.answers.append(answer)


def cases():
    t = Table()
    one = [(0, 1, 7)]
    two = [(0, 1, 7), (1, 0, 7)]

    t.note("a plan with no link, with one, with both directions of a pair")
    for links in ([], one, two):
        t.read("sum", plan("sum", 2, links))
        t.read("split", plan("split", 2, links))

    t.note("2: a list of 0 places, of 4,097 places; 1 and 4,096 will do")
    for places in (0, 4097, 1, 4096):
        t.read("sum", plan("sum", 2, one), places)

    t.note("15: nothing, and one byte short of a header")
    t.read("sum", b"")
    t.read("sum", plan("sum", 2, [])[:9])

    t.note("16: another mark, at each of its bytes")
    for mark in (b"DPL", b"CQL", b"CPM", b"cpl", b"LPC"):
        t.read("sum", plan("sum", 2, one, mark=mark))

    t.note("17: versions 0, 2, 256 and 257")
    for version in (0, 2, 256, 257):
        t.read("sum", plan("sum", 2, one, version=version))

    t.note("18: the other kind's byte, and bytes that name no kind")
    for kind in ("sum", "split"):
        for byte in (0, 1, 2, 255):
            t.read(kind, plan(kind, 2, one, byte=byte))

    t.note("19: n 0 and 257, 256 will do; as many links as places will do, one more will not")
    for stations in (0, 257, 65535, 256):
        t.read("sum", plan("sum", stations, one))
    t.read("sum", plan("sum", 1, []))
    t.read("sum", plan("sum", 1, [(0, 0, 7)]))
    t.read("sum", plan("sum", 2, two), 2)
    t.read("sum", plan("sum", 2, two), 1)
    t.read("sum", plan("sum", 2, [], count=4097))
    t.read("sum", plan("sum", 2, [], count=65535))

    t.note("20: one byte short, one long, a trailing newline, a record too few, a record too many")
    whole = plan("sum", 2, two)
    for data in (whole[:-1], whole + b"\x00", whole + b"\n", plan("sum", 2, one, count=2), plan("sum", 2, two, count=1)):
        t.read("sum", data)

    t.note("22 by 21: the ends of both link ranges, zero and FAR")
    for cost in (0, 1, 1_000_000_000, 1_000_000_001, 2**63, TOP - 1, TOP):
        t.read("sum", plan("sum", 2, [(0, 1, cost)]))
    for cost in (0, 1, 2, 64, 65, 256 + 2, TOP - 1, TOP):
        t.read("split", plan("split", 2, [(0, 1, cost)]))

    t.note("22 by 3: a station of n, as start and as end; station 255 of 256 will do")
    for link in ((2, 1, 7), (1, 2, 7), (1, 256, 7), (256, 1, 7)):
        t.read("sum", plan("sum", 2, [link]))
    t.read("sum", plan("sum", 256, [(255, 0, 7), (0, 255, 7)]))
    t.read("sum", plan("sum", 256, [(255, 256, 7)]))

    t.note("22 by 4 and by 6; a pair may have a link each way")
    t.read("sum", plan("sum", 2, [(1, 1, 7)]))
    t.read("sum", plan("sum", 2, [(0, 1, 7), (0, 1, 7)]))
    t.read("sum", plan("sum", 2, [(0, 1, 7), (0, 1, 8)]))
    t.read("sum", plan("sum", 3, [(0, 1, 7), (1, 2, 7), (2, 0, 7), (1, 0, 7), (1, 2, 9)]))

    t.note("the first faulty record is named, whatever its fault")
    t.read("sum", plan("sum", 3, [(0, 1, 7), (0, 1, 7), (0, 2, 0)]))
    t.read("sum", plan("sum", 3, [(0, 1, 7), (0, 2, 0), (0, 1, 7)]))
    t.read("sum", plan("sum", 3, [(0, 1, 7), (1, 2, 7), (2, 2, 7), (9, 9, 0)]))

    t.note("two faults at once: the lower number answers, in a record 21, 3, 4, 6")
    t.read("sum", b"", 0)
    t.read("sum", plan("sum", 0, [], mark=b"XXX", version=9, byte=9, count=9), 4097)
    t.read("sum", b"XPL\x00\x09\x09", 1)
    t.read("sum", plan("sum", 2, one, mark=b"CPX", version=2))
    t.read("sum", plan("sum", 2, one, version=2, byte=1))
    t.read("sum", plan("sum", 0, one, byte=1))
    t.read("sum", plan("sum", 257, one)[:-1])
    t.read("sum", plan("sum", 2, two)[:-1], 1)
    t.read("sum", plan("sum", 2, [(0, 1, 0)]) + b"\x00")
    t.read("sum", plan("sum", 2, [(5, 5, 0)]))
    t.read("sum", plan("sum", 2, [(5, 5, 7)]))
    t.read("sum", plan("sum", 2, [(1, 1, 0)]))
    t.read("sum", plan("sum", 2, [(0, 1, 7), (0, 1, 0)]))

    t.note("4,096 links of 256 stations, both kinds; one repeated at the end; 4,097 links")
    t.read("sum", plan("sum", 256, ring(256, 4096, 1_000_000_000)))
    t.read("split", plan("split", 256, ring(256, 4096, 64)))
    t.read("sum", plan("sum", 256, ring(256, 4095, 3) + [(0, 1, 3)]))
    t.read("sum", plan("sum", 256, ring(256, 4097, 3)))

    t.note("writing: a plan with no link, one that just fits, one with room to spare")
    t.write("sum", 1, 10, [])
    t.write("sum", 2, 22, one)
    t.write("split", 2, 37, two)
    t.write("sum", 256, 24, [(255, 254, 1_000_000_000)])
    t.write("split", 2, 22, [(0, 1, 64)])

    t.note("writing: 1 for n 0 and 257, 12 for a byte too few, 21 for the first cost outside the range")
    t.write("sum", 0, 22, one)
    t.write("sum", 257, 22, one)
    t.write("sum", 2, 21, one)
    t.write("sum", 2, 0, [])
    for links in ([(0, 1, 0)], [(0, 1, 1_000_000_001)], [(0, 1, TOP)], [(0, 1, 7), (1, 0, 0), (1, 2, 0)]):
        t.write("sum", 3, 60, links)
    for links in ([(0, 1, 1)], [(0, 1, 65)], [(0, 1, TOP)], [(0, 1, 7), (1, 0, 7), (1, 2, 65)]):
        t.write("split", 3, 60, links)

    t.note("writing: 2 for 4,097 links; 1 before 2 before 12 before 21")
    t.write("sum", 256, 3, ring(256, 4097, 0))
    t.write("sum", 0, 3, ring(256, 4097, 0))
    t.write("sum", 0, 3, [(0, 1, 0)])
    t.write("sum", 2, 3, [(0, 1, 0)])

    t.note("forming costs: the ends, and 0 in split")
    for kind in ("sum", "split"):
        for number in (0, 1, 2, TOP - 1, TOP):
            t.form(kind, number)

    t.note("lines that a table need not have: a digit that is none counts as 0, also one in upper case; a last one alone is left out")
    empty = plan("sum", 2, [])
    digits = empty.hex()
    t.line(f"read sum 4096 {digits[:-1]}B", answer_read("sum", 4096, empty))
    t.line(f"read sum 4096 {digits[:-2]}g0", answer_read("sum", 4096, empty))
    t.line(f"read sum 4096 {digits[:-2]}\u00e9", answer_read("sum", 4096, empty))
    t.line(f"read sum 4096 {digits[:-1]}", answer_read("sum", 4096, empty[:-1]))
    t.line(f"read sum 4096 {digits}0", answer_read("sum", 4096, empty))
    t.line(f"read sum 4096 {digits.upper()}", answer_read("sum", 4096, bytes.fromhex(digits.replace("c", "0"))))

    t.note("a word that is missing is empty, and one too many is not read; a kind that is none is sum, a call that is none forms a cost")
    t.line("read sum 4096", answer_read("sum", 4096, b""))
    t.line("read sum 0", answer_read("sum", 0, b""))
    t.line(f"read sum 4096 {digits} words", answer_read("sum", 4096, empty))
    t.line("form plain 0 1", answer_form("sum", 0))
    t.line("make split 0", answer_form("split", 0))

    t.note("a list ends at the first number that forms no cost; what follows it is not read, nor a fourth number of a link")
    for rest in (",x", ",", ",0-1", ",0-65536-7", ",0-1-18446744073709551616"):
        t.line(f"write split 3 60 0-1-0{rest}", answer_write("split", 3, 60, [(0, 1, 0)]))
    t.line("write sum 3 60 0-1-7-9", answer_write("sum", 3, 60, one))

    t.note("plans by chance, and the same with one byte changed")
    dice = random.Random(1711)
    for _ in range(60):
        kind = dice.choice(["sum", "split"])
        n = dice.choice([2, 3, 5, 17, 256])
        pairs = [(a, b) for a in range(min(n, 6)) for b in range(min(n, 6)) if a != b]
        dice.shuffle(pairs)
        low, high = RANGES[kind]
        links = [(a, b, dice.randint(low, high)) for a, b in pairs[: dice.randint(0, 5)]]
        data = plan(kind, n, links)
        t.read(kind, data)
        at = dice.randrange(len(data))
        t.read(kind, data[:at] + bytes([dice.randrange(256)]) + data[at + 1 :])
    return t


CAMPUS = [
    (0, 1, 4), (0, 2, 1), (2, 1, 2), (1, 3, 5), (2, 3, 8),
    (3, 4, 120), (4, 3, 118), (4, 5, 35), (5, 6, 35), (6, 4, 41),
    (5, 7, 999_999_999), (7, 5, 1_000_000_000), (6, 8, 12), (8, 9, 12), (9, 0, 640),
]
OUTLETS = [(0, 1, 8), (0, 2, 64), (1, 3, 4), (2, 3, 2), (3, 4, 16), (4, 5, 2)]


def account(kind, stations, links):
    lines = [f"{kind} {stations} {len(links)}"] + [f"{a} {b} {c}" for a, b, c in links]
    return "".join(line + "\n" for line in lines)


def main():
    root = pathlib.Path(".")
    campus = plan("sum", 10, CAMPUS)
    (root / "examples").mkdir(exist_ok=True)
    (root / "examples/campus.cpl").write_bytes(campus)
    (root / "examples/small.cpl").write_bytes(plan("sum", 5, CAMPUS_H))
    (root / "examples/outlets.cpl").write_bytes(plan("split", 6, OUTLETS))
    (root / "examples/repeated.cpl").write_bytes(plan("sum", 4, [(0, 1, 7), (1, 2, 7), (2, 3, 7), (0, 1, 9)]))
    (root / "crates/links/stdin").write_bytes(campus)
    (root / "crates/links/stdout").write_text(account("sum", 10, CAMPUS))
    table = cases()
    (root / "crates/file_cases/stdin").write_text("".join(line + "\n" for line in table.lines))
    (root / "crates/file_cases/stdout").write_text("".join(line + "\n" for line in table.answers))


main()
