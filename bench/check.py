"""Tests that all contestants agree on a plan: equal costs, and predecessors that lead along walks of just these costs."""

import array

from groups import Stopped

FAR = 2**64 - 1
NONE = 2**16 - 1


def check(plan, groups, folder):
    """Stops where two contestants differ on a plan, or where a predecessor is wrong."""
    links = {(a, b): cost for a, b, cost in plan.links}
    expected, tested = None, []
    for group in groups:
        for name in group.names:
            if name == "reading":
                continue
            costs, predecessors = dumped(group, name, folder / "table", plan.stations)
            told = f"{group.title}, {name}, on {plan}"
            if expected is None:
                expected, first = costs, told
            if costs != expected:
                raise Stopped(f"costs differ at {place_of_difference(costs, expected, plan.stations)}: {told}; {first}")
            if predecessors and predecessors not in tested:
                expect_tight(plan.stations, links, costs, predecessors, told)
                tested.append(predecessors)


def dumped(group, name, path, stations):
    """The table that a contestant works. A peer that tells costs only has no predecessors."""
    group.ask("dump", name, path)
    data, places = path.read_bytes(), stations * stations
    costs, predecessors = array.array("Q", data[: 8 * places]), array.array("H", data[8 * places :])
    if len(costs) != places or len(predecessors) not in (0, places):
        raise Stopped(f"{group.title}, {name}, tells a table of another size")
    return costs, predecessors


def place_of_difference(costs, expected, stations):
    place = next(place for place, cost in enumerate(costs) if cost != expected[place])
    return f"row {place // stations}, station {place % stations}, {costs[place]} and {expected[place]}"


def expect_tight(stations, links, costs, predecessors, told):
    """Stops where a predecessor is missing elsewhere than at the source and at FAR, or does not lead on at just the cost."""
    for source in range(stations):
        row = costs[source * stations : (source + 1) * stations]
        for station, last in enumerate(predecessors[source * stations : (source + 1) * stations]):
            if station == source or row[station] == FAR:
                right = last == NONE
            else:
                right = (last, station) in links and row[last] + links[last, station] == row[station]
            if not right:
                raise Stopped(f"the predecessor {last} is wrong at row {source}, station {station}: {told}")
