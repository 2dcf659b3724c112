#!/usr/bin/env python3
"""Compares what the example prints of a sound plan file, on standard input, with a table worked out here from docs/RULES.md.

    ./example PLAN | ./example_due.py PLAN
"""
import sys

FAR = 2**64 - 1


def number(data):
    return int.from_bytes(data, "big")


class Plan:
    def __init__(self, data):
        records = [data[start : start + 12] for start in range(10, len(data), 12)]
        self.sums = data[5] == 0
        self.stations = number(data[6:8])
        self.links = {(number(record[:2]), number(record[2:4])): number(record[4:]) for record in records}

    def join(self, walk, link):
        return min(walk + link if self.sums else walk * link, FAR)

    def least_costs(self, source):
        """Offers along every link, round after round; after as many rounds as there are stations none is lower."""
        costs = [FAR] * self.stations
        costs[source] = 0 if self.sums else 1
        for _ in range(self.stations):
            for (start, end), link in self.links.items():
                costs[end] = min(costs[end], self.join(costs[start], link))
        return costs

    def predecessors(self, source, costs, station):
        """The predecessors that a line may have, as several may be right."""
        if station == source or costs[station] == FAR:
            return ["-"]
        before = [start for start, end in self.links if end == station]
        return [str(start) for start in before if self.join(costs[start], self.links[start, station]) == costs[station]]


def lines_due(plan):
    """For each line, the lines that are right."""
    for source in range(plan.stations):
        costs = plan.least_costs(source)
        for station, cost in enumerate(costs):
            told = "far" if cost == FAR else cost
            yield [f"{source} {station} {told} {before}" for before in plan.predecessors(source, costs, station)]


def main(name):
    with open(name, "rb") as file:
        due = list(lines_due(Plan(file.read())))
    printed = sys.stdin.read().splitlines()
    if len(printed) != len(due):
        sys.exit(f"{name}: {len(printed)} lines are printed, {len(due)} are due")
    for line, right in zip(printed, due):
        if line not in right:
            sys.exit(f"{name}: {line!r} is printed, {right} is due")
    print(f"{name}: {len(due)} lines as they are due")


main(sys.argv[1])
