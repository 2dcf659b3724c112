"""Times contestants in turn."""

CALLS = 3
SLOW_ROUNDS, SLOW_CALLS = 3, 1
READ_PLAN = ("dense", 256)


class Times:
    """The least milliseconds of each contestant on one plan: the library's, hand-written C's and the peers'."""

    def __init__(self, plan, ours, hand, peers):
        self.plan, self.ours, self.hand, self.peers = plan, ours, hand, peers

    def best_peer(self):
        """The fastest peer and its time, or none where there is no peer."""
        return min(self.peers.items(), key=lambda peer: peer[1], default=(None, None))


def measure(plan, ours, hand, peers, rounds):
    """Asks each contestant of a plan that is loaded in each round, one after the other."""
    names = [name for name in ours.names if name != "reading" or (plan.family, plan.stations) == READ_PLAN]
    asked = [(ours, name) for name in names] + [(group, name) for group in (hand, *peers) for name in group.names]
    least = {}
    for number in range(rounds):
        for group, name in asked:
            if group.slow and number >= SLOW_ROUNDS:
                continue
            taken = int(group.ask("run", name, SLOW_CALLS if group.slow else CALLS)) / 1e6
            least[group, name] = min(taken, least.get((group, name), taken))
    own = [{name: time for (group, name), time in least.items() if group is owner} for owner in (ours, hand)]
    return Times(plan, *own, {group.label(name): time for (group, name), time in least.items() if group in peers})
