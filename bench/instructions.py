"""Counts instructions inside the library's calls, for comparison with counts recorded before."""

import pathlib
import re
import shutil
import subprocess

from groups import Stopped
from plans import SEEDS, Plan

RECORDED = pathlib.Path(__file__).resolve().parent / "instructions.txt"
PLANS = [(family, 64) for family in SEEDS] + [("campus", 256)]
CALLS = {"whole": "firnolvag_table", "reading": "firnolvag_sound"}


def available():
    return shutil.which("valgrind") is not None


def count_all(ours, chosen, folder):
    """Counts of each fixed plan that is chosen and each contestant, by the words of their line in the file."""
    counts = {}
    for family, stations in PLANS:
        if not chosen(family, stations):
            continue
        path = folder / f"{family}-{stations}.cpl"
        path.write_bytes(Plan(family, stations).file())
        for name in ours.names:
            counts[family, stations, name] = count(ours.process.args, path, name, folder)
    return counts


def count(command, plan, name, folder):
    """The instructions of one call, from its entry to its return."""
    call = CALLS.get(name, "firnolvag_table_by")
    tool = ["valgrind", "--tool=callgrind", f"--toggle-collect={call}", f"--callgrind-out-file={folder / 'callgrind'}"]
    lines = f"load {plan}\nrun {name} 1\n"
    done = subprocess.run(tool + command, input=lines, capture_output=True, text=True, check=False)
    found = re.search(r"Collected : (\d+)", done.stderr)
    if done.returncode != 0 or found is None or found[1] == "0":
        raise Stopped(f"callgrind does not count {name}: {done.stderr.strip()}")
    return int(found[1])


def recorded():
    """The counts of the file, and what it says of the machine; nothing where there is no file."""
    if not RECORDED.exists():
        return {}, "nothing is recorded yet"
    head, *lines = RECORDED.read_text().splitlines()
    words = [line.split() for line in lines]
    return {(family, int(stations), name): int(count) for family, stations, name, count in words}, head


def record(counts, head):
    lines = [head] + [f"{family} {stations} {name} {count}" for (family, stations, name), count in counts.items()]
    RECORDED.write_text("\n".join(lines) + "\n")
