#!/usr/bin/env python3
"""Works out the tables of the six stations in crates/routes/specs/Worked.antt from the rules, without the definitions there.

Prints the states of one run of each method, who fails in the wrong rows, and which links are tight in row 2; `-` is none.
"""

FAR = 2**64 - 1
STATIONS = 6
LINKS = [(0, 1, 4), (0, 2, 1), (2, 1, 2), (1, 3, 5), (2, 3, 8), (1, 4, 9), (3, 4, 1), (3, 0, 1)]
NONE = None


def join(a, b):
    return min(a + b, FAR)


def least(source):
    """The least costs from a source, by going over all links until nothing falls any more."""
    costs = [FAR] * STATIONS
    costs[source] = 0
    for _ in range(STATIONS):
        for start, end, cost in LINKS:
            costs[end] = min(costs[end], join(costs[start], cost))
    return costs


# The right rows of sources 0 and 2; the predecessors are the only ones that stand last on a cheapest walk.
ROW_OF = {
    0: (least(0), [NONE, 2, 0, 1, 3, NONE]),
    2: (least(2), [3, 2, NONE, 1, 3, NONE]),
}


def tight(row, start, end, cost):
    costs, _ = row
    return join(costs[start], cost) == costs[end] != FAR


def run(method, worked, takes):
    """The states of a run for source 0 that takes these stations, beginning with the state before the first."""
    source = 0
    label, before, first = [FAR] * STATIONS, [NONE] * STATIONS, [NONE] * STATIONS
    label[source] = 0
    waits = {source: 0}
    states = [(list(label), list(before), list(first), dict(waits), 0)]
    for count, taken in enumerate(takes, 1):
        assert waits[taken] == min(waits.values()), "a cheaper station waits"
        del waits[taken]
        own = label[taken]
        if method == "reuse" and taken in worked:
            costs, predecessors = ROW_OF[taken]
            for station in range(STATIONS):
                offer = join(own, costs[station])
                if offer < label[station]:
                    label[station], before[station] = offer, predecessors[station]
                    if station in waits:
                        waits[station] = min(waits[station], offer)
        else:
            guide = first[taken] if method == "prune" and taken != source and first[taken] in worked else NONE
            for start, end, cost in LINKS:
                if start != taken or (guide is not NONE and not tight(ROW_OF[guide], start, end, cost)):
                    continue
                offer = join(own, cost)
                if offer < label[end]:
                    label[end], before[end] = offer, taken
                    if method == "prune":
                        first[end] = end if taken == source else first[taken]
                    waits[end] = min(waits.get(end, FAR), offer)
        states.append((list(label), list(before), list(first), dict(waits), count))
    assert not waits, "somebody still waits"
    return states


def failures(row):
    """Which stations of a row for source 0 fail, each beside the cause."""
    costs, before = row
    found = []
    for station in range(STATIONS):
        p = before[station]
        over = [cost for start, end, cost in LINKS if start == p and end == station]
        causes = {
            1: station == 0 and (costs[station] != 0 or p is not NONE),
            2: station != 0 and (costs[station] == FAR) == (p is not NONE),
            3: p is not NONE and (p >= STATIONS or not over),
            4: any(join(costs[p], cost) != costs[station] for cost in over),
            5: any(end == station and join(costs[start], cost) < costs[station] for start, end, cost in LINKS),
        }
        found += [(station, cause) for cause, fails in causes.items() if fails]
    return found


def changed_at(station, cost, predecessor):
    costs, before = (list(part) for part in ROW_OF[0])
    costs[station], before[station] = cost, predecessor
    return costs, before


def shown(values):
    return " ".join("far" if v == FAR else "-" if v is NONE else str(v) for v in values)


def main():
    for method, worked, takes in [
        ("plain", {0, 2}, [0, 2, 1, 3, 4]),
        ("reuse", {2}, [0, 2, 1]),
        ("reuse", {0, 2}, [0]),
        ("prune", {0, 2}, [0, 2, 1, 3, 4]),
    ]:
        print(method, "with worked rows", *sorted(worked))
        for label, before, first, waits, count in run(method, worked, takes):
            waiting = [waits.get(station) for station in range(STATIONS)]
            print(f"  {shown(label)} | {shown(before)} | {shown(first)} | {shown(waiting)} | {count}")
    print("failures")
    for change in [
        None, (0, 5, NONE), (0, 0, 2), (0, 0, 3), (0, 20, 3), (3, 8, NONE),
        (5, FAR, 3), (3, 8, 6), (3, 8, 5), (3, 7, 1), (3, FAR, 1), (3, 9, 2),
    ]:
        print(" ", change, failures(changed_at(*change) if change else ROW_OF[0]))
    print("tight in row 2, and in row 2 with cost 9 for station 3")
    print(" ", [tight(ROW_OF[2], *link) for link in LINKS + [(5, 5, 1)]])
    costs, before = (list(part) for part in ROW_OF[2])
    costs[3] = 9
    print(" ", [tight((costs, before), *link) for link in LINKS])


if __name__ == "__main__":
    main()
