"""The tables that are printed."""

from measure import READ_PLAN

BY_QUEUE = ["plain/heap", "reuse/heap", "prune/heap", "plain/shelf", "reuse/shelf", "prune/shelf"]
ALL = BY_QUEUE + ["whole"]
AIMED_SIZE = 256
AIMS = [
    ("plain/heap by the best peer", 1.0, lambda times: ratio(times.ours["plain/heap"], times.best_peer()[1])),
    ("plain/heap by C", 1.15, lambda times: ratio(times.ours["plain/heap"], times.hand["plain/heap"])),
    ("whole by the best peer", 0.3, lambda times: ratio(times.ours["whole"], times.best_peer()[1])),
]
MOST_READING = 0.1


def ratio(time, other):
    return None if other is None else time / other


def told(number, digits=2):
    return "-" if number is None else f"{number:.{digits}f}"


def table(heads, rows):
    """A table as Markdown writes it, with columns that line up. Columns of names stand to the left, others to the right."""
    cells = [[str(cell) for cell in row] for row in rows]
    widths = [max(len(row[column]) for row in [heads] + cells) for column in range(len(heads))]
    left = [all(is_name(row[column]) for row in cells) for column in range(len(heads))]
    pad = lambda row: [cell.ljust(width) if name else cell.rjust(width) for cell, width, name in zip(row, widths, left)]
    rule = ["-" * width if name else "-" * (width - 1) + ":" for width, name in zip(widths, left)]
    return "\n".join("| " + " | ".join(row) + " |" for row in [pad(heads), rule] + [pad(row) for row in cells])


def is_name(cell):
    return cell[:1].isalpha()


def by_peer(measured):
    """The main table: the library by the best peer, and by hand-written C."""
    heads = ["family", "n", "links", "seed", "best peer", "its ms", "C plain/heap, ms"] + ALL + ["plain/heap by C", "whole by C"]
    rows = []
    for times in measured:
        name, best = times.best_peer()
        row = [times.plan.family, times.plan.stations, len(times.plan.links), times.plan.seed, name or "none"]
        row += [told(best, 3), told(times.hand["plain/heap"], 3)]
        row += [told(ratio(times.ours[method], best)) for method in ALL]
        rows.append(row + [told(times.ours[method] / times.hand[method]) for method in ("plain/heap", "whole")])
    return table(heads, rows)


def of_peers(measured):
    """All peers, in milliseconds."""
    labels = list(measured[0].peers)
    rows = [[times.plan.family, times.plan.stations] + [told(times.peers[label], 3) for label in labels] for times in measured]
    return table(["family", "n"] + labels, rows)


def by_hand(measured):
    """The library and hand-written C, in milliseconds."""
    rows = []
    for times in measured:
        pairs = [f"{times.ours[method]:.3f} / {times.hand[method]:.3f}" for method in ALL]
        rows.append([times.plan.family, times.plan.stations] + pairs)
    return table(["family", "n"] + ALL, rows)


def reading_times(measured):
    """Reading alone and one plain/heap table, in milliseconds, where both were measured."""
    return next(((times.ours["reading"], times.ours["plain/heap"]) for times in measured if "reading" in times.ours), None)


def reading(measured):
    plan, read = " ".join(map(str, READ_PLAN)), reading_times(measured)
    if read is None:
        return f"Reading alone is measured on the plan {plan} only, which was not run."
    return f"Reading alone, on the plan {plan}: {read[0]:.3f} ms, that is {read[0] / read[1]:.3f} of one plain/heap table."


def verdict(number, most):
    """Whether a ratio is at most what it should be, and by how much of that."""
    if number is None:
        return "no peer"
    away = abs(number / most - 1) * 100
    return f"{number:.3f}, {'met' if number <= most else 'missed'} by {away:.1f} %"


def aims(measured):
    """What is aimed at: one line for each family at the size it is meant for, then one for reading."""
    aimed = [times for times in measured if times.plan.stations == AIMED_SIZE]
    if not aimed:
        return f"The aims are meant for n = {AIMED_SIZE}, which was not run."
    heads = ["family"] + [f"{name}, at most {most}" for name, most, _ in AIMS]
    rows = [[times.plan.family] + [verdict(of(times), most) for _, most, of in AIMS] for times in aimed]
    read = reading_times(measured)
    last = "not run" if read is None else verdict(read[0] / read[1], MOST_READING)
    return f"{table(heads, rows)}\n\nReading by one plain/heap table, at most {MOST_READING}: {last}."


def instructions(counts, recorded):
    """Counts of now beside those recorded."""
    rows = []
    for (family, stations, name), count in counts.items():
        before = recorded.get((family, stations, name))
        change = "-" if before is None else f"{(count / before - 1) * 100:+.1f}"
        rows.append([family, stations, name, before or "-", count, change])
    return table(["family", "n", "call", "recorded", "counted", "change in %"], rows)
