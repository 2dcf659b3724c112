"""What the tools share: costs, plan files, refusals and least costs, by docs/RULES.md alone."""

TOP = 2**64 - 1
FAR = TOP
BYTES = {"sum": 0, "split": 1}
RANGES = {"sum": (1, 1_000_000_000), "split": (2, 64)}
ZERO = {"sum": 0, "split": 1}

# two campuses of sums, of 5 stations and of 8: from, to, cost
CAMPUS_H = [(0, 1, 4), (0, 2, 1), (2, 1, 2), (1, 3, 5), (2, 3, 8)]
CAMPUS_J = [(0, 1, 1), (0, 2, 1), (1, 6, 1), (6, 3, 1), (2, 7, 1), (7, 4, 1), (3, 5, 1), (4, 5, 1), (2, 3, 2), (1, 4, 2)]


class Refused(Exception):
    """A call is refused; the numbers are what it tells."""

    def __str__(self):
        return " ".join(map(str, ("refused",) + self.args))


class Free(Exception):
    """The rules leave the answer free."""


def join(kind, a, b):
    return min(a + b if kind == "sum" else a * b, FAR)


def told(cost):
    return "far" if cost == FAR else str(cost)


def named_kind(data):
    """The kind that a file is read as."""
    return "split" if len(data) > 5 and data[5] == 1 else "sum"


def plan_file(kind, stations, links, *, mark=b"CPL", version=1, byte=None, count=None):
    """A plan file, with any part of its header replaced."""
    out = mark + version.to_bytes(2, "big") + bytes([BYTES[kind] if byte is None else byte])
    out += stations.to_bytes(2, "big") + (len(links) if count is None else count).to_bytes(2, "big")
    for a, b, cost in links:
        out += a.to_bytes(2, "big") + b.to_bytes(2, "big") + cost.to_bytes(8, "big")
    return out


def parse_file(kind, data, places, cells):
    """The stations and links of a file that is read into a list of so many places and tables of so many cells, or its first refusal."""
    number = lambda part: int.from_bytes(part, "big")
    if places not in range(1, 4097):
        raise Refused(2)
    if len(data) < 10:
        raise Refused(15)
    if data[:3] != b"CPL":
        raise Refused(16)
    if number(data[3:5]) != 1:
        raise Refused(17)
    if data[5] != BYTES[kind]:
        raise Refused(18)
    stations, count = number(data[6:8]), number(data[8:10])
    if stations not in range(1, 257) or count > places or any(held < stations**2 for held in cells):
        raise Refused(19)
    if len(data) != 10 + 12 * count:
        raise Refused(20)
    records = [data[10 + 12 * k : 22 + 12 * k] for k in range(count)]
    links = [(number(r[:2]), number(r[2:4]), number(r[4:])) for r in records]
    low, high = RANGES[kind]
    pairs = set()
    for index, (a, b, cost) in enumerate(links):
        faults = {21: not low <= cost <= high, 3: max(a, b) >= stations, 4: a == b, 6: (a, b) in pairs}
        for fault, fits in faults.items():
            if fits:
                raise Refused(22, index, fault)
        pairs.add((a, b))
    return stations, links


def least_costs(kind, stations, links, source):
    """The least costs from a source, by going over all links until nothing falls any more."""
    costs = [FAR] * stations
    costs[source] = ZERO[kind]
    before = None
    while before != costs:
        before = list(costs)
        for a, b, cost in links:
            costs[b] = min(costs[b], join(kind, costs[a], cost))
    return costs
