"""The plans that are measured: families of campuses, and plan files of them."""

SEEDS = {"sparse": 1000, "sparse-wide": 2000, "dense": 3000, "campus": 4000, "scale-free": 5000, "grid": 6000, "hypercube": 7000}
SIZES = (64, 200, 256)
MOST_LINKS = 4096
HALL = 16


class Numbers:
    """A fixed sequence of numbers for each seed, the same on every machine and with every Python."""

    def __init__(self, seed):
        self.state = seed

    def below(self, bound):
        """A number below the bound, which is far below 2^64."""
        self.state = (self.state + 0x9E3779B97F4A7C15) % 2**64
        mixed = (self.state ^ self.state >> 30) * 0xBF58476D1CE4E5B9 % 2**64
        mixed = (mixed ^ mixed >> 27) * 0x94D049BB133111EB % 2**64
        return (mixed ^ mixed >> 31) % bound

    def shuffle(self, items):
        for last in range(len(items) - 1, 0, -1):
            other = self.below(last + 1)
            items[last], items[other] = items[other], items[last]


class Plan:
    """A plan of kind sum: its family, n, seed, and links as (from, to, cost)."""

    def __init__(self, family, stations):
        self.family, self.stations = family, stations
        self.seed = SEEDS[family] + stations
        self.links = links(family, stations, self.seed)

    def __str__(self):
        return f"{self.family} {self.stations}"

    def file(self):
        """The plan as a plan file."""
        parts = [b"CPL", (1).to_bytes(2, "big"), bytes([0]), self.stations.to_bytes(2, "big"), len(self.links).to_bytes(2, "big")]
        for a, b, cost in self.links:
            parts += [a.to_bytes(2, "big"), b.to_bytes(2, "big"), cost.to_bytes(8, "big")]
        return b"".join(parts)


def links(family, stations, seed):
    """The links of a plan in a random order, at random costs."""
    numbers = Numbers(seed)
    pairs = list(PAIRS[family](stations, numbers))
    numbers.shuffle(pairs)
    most_cost = 1_000_000_000 if family == "sparse-wide" else 1000
    return [(a, b, 1 + numbers.below(most_cost)) for a, b in pairs]


def sparse(stations, numbers):
    return random_pairs(stations, 4 * stations, numbers)


def dense(stations, numbers):
    return random_pairs(stations, min(MOST_LINKS, stations * (stations - 1)), numbers)


def random_pairs(stations, count, numbers):
    """So many of all ordered pairs of two stations."""
    pairs = [(a, b) for a in range(stations) for b in range(stations) if a != b]
    numbers.shuffle(pairs)
    return pairs[:count]


def campus(stations, numbers):
    """Halls of a hub and its leaves; two rings of trunks join the hubs, each in an order of its own."""
    hubs = range(0, stations, HALL)
    pairs = [(station - station % HALL, station) for station in range(stations) if station % HALL]
    for _ in range(2):
        ring = list(hubs)
        numbers.shuffle(ring)
        pairs += zip(ring, ring[1:] + ring[:1])
    return both_ways(pairs)


def scale_free(stations, numbers):
    """Each station is joined to three before it, the more likely the more links these have."""
    pairs = [(0, 1), (0, 2), (1, 2)]
    for station in range(3, stations):
        ends = [end for pair in pairs for end in pair]
        joined = set()
        while len(joined) < 3:
            joined.add(ends[numbers.below(len(ends))])
        pairs += [(station, other) for other in sorted(joined)]
    return both_ways(pairs)


def grid(stations, numbers):
    """A rectangle that is as near to a square as n allows."""
    width = max(side for side in range(1, stations + 1) if stations % side == 0 and side * side <= stations)
    across = [(station, station + 1) for station in range(stations) if (station + 1) % width]
    return both_ways(across + [(station, station + width) for station in range(stations - width)])


def hypercube(stations, numbers):
    """Stations whose numbers differ in one bit are joined."""
    flipped = [(station, station ^ 1 << bit) for station in range(stations) for bit in range(stations.bit_length())]
    return both_ways((a, b) for a, b in flipped if b < stations)


def both_ways(pairs):
    """Each pair once in each direction, in a fixed order."""
    return sorted({pair for a, b in pairs for pair in ((a, b), (b, a))})


PAIRS = {
    "sparse": sparse,
    "sparse-wide": sparse,
    "dense": dense,
    "campus": campus,
    "scale-free": scale_free,
    "grid": grid,
    "hypercube": hypercube,
}
