"""The groups of contestants: how they are built, started and asked. What they understand stands in protocol.h."""

import pathlib
import re
import subprocess
import sys

BENCH = pathlib.Path(__file__).resolve().parent
ROOT = BENCH.parent
OUT = BENCH / "out"
BUILD = ROOT / "bindings" / "build"
LIBRARY = ROOT / "bindings" / "lib" / "libfirnolvag.a"


class Stopped(Exception):
    """The benchmark cannot go on, and why."""


class NotBuilt(Exception):
    """A group cannot be built here, and why."""


class Group:
    """A group of contestants at work, as a program of its own."""

    def __init__(self, command, slow):
        self.slow = slow
        self.process = subprocess.Popen(command, stdin=subprocess.PIPE, stdout=subprocess.PIPE, text=True)
        self.title = self.answer()
        self.names = self.answer().split()

    def answer(self):
        line = self.process.stdout.readline()
        if not line:
            raise Stopped(f"{self.process.args[-1]} ended early")
        return line.strip()

    def ask(self, *words):
        self.process.stdin.write(" ".join(map(str, words)) + "\n")
        self.process.stdin.flush()
        return self.answer()

    def label(self, name):
        """What a contestant is called in the tables of peers."""
        short = self.title.split()[0]
        return short if len(self.names) == 1 else f"{short} {name}"


def first_error(text):
    """Of what a command said, the first line that tells of an error."""
    lines = [line.strip() for line in text.splitlines() if line.strip()]
    telling = [line for line in lines if re.search("error|cannot find|no such", line, re.IGNORECASE)]
    return (telling or lines or ["it does not say why"])[0]


def call(command, folder=BENCH):
    """Runs a command that builds something."""
    try:
        done = subprocess.run(command, cwd=folder, stdout=subprocess.PIPE, stderr=subprocess.STDOUT, text=True, check=False)
    except OSError as failed:
        raise NotBuilt(f"{command[0]} cannot be run: {failed.strerror}") from None
    if done.returncode != 0:
        raise NotBuilt(first_error(done.stdout))
    return done.stdout


def build_c(source, *libraries):
    program = OUT / source.removesuffix(".c")
    call(["gcc", "-O3", "-DNDEBUG", "-std=gnu11", "-o", program, source, *libraries])
    return [program]


def build_cpp(source):
    program = OUT / source.removesuffix(".cpp")
    call(["g++", "-O3", "-DNDEBUG", "-std=c++17", "-o", program, source])
    return [program]


def build_petgraph():
    folder = OUT / "petgraph"
    call(["cargo", "build", "--quiet", "--release", "--jobs", "1", "--target-dir", folder], BENCH / "petgraph")
    return [folder / "release" / "petgraph_peer"]


def find_scipy():
    """A Python that has SciPy: the one at hand, or the system's own."""
    for python in (sys.executable, "/usr/bin/python3"):
        try:
            call([python, "-c", "import scipy.sparse.csgraph"])
        except NotBuilt as failed:
            why = failed
        else:
            return [python, BENCH / "scipy_peer.py"]
    raise why


def build_library():
    """The library as its own script builds it."""
    try:
        call([BUILD], ROOT)
    except NotBuilt as failed:
        raise Stopped(f"the library cannot be built: {failed}") from None
    return LIBRARY


PEERS = [
    ("Boost Graph", lambda: build_cpp("boost.cpp"), False),
    ("LEMON", lambda: build_cpp("lemon.cpp"), False),
    ("petgraph", build_petgraph, True),
    ("SciPy", find_scipy, True),
]


def start_own(library):
    """The library's group and that of hand-written C."""
    try:
        ours = build_c("ours.c", library, "-lpthread", "-ldl", "-lm")
        hand = build_c("hand.c")
    except NotBuilt as failed:
        raise Stopped(f"the library's own contestants cannot be built: {failed}") from None
    return Group(ours, slow=False), Group(hand, slow=False)


def start_peers():
    """The peers that can be built here, and a line about each of the others."""
    peers, skipped = [], []
    for name, build, slow in PEERS:
        try:
            peers.append(Group(build(), slow))
        except NotBuilt as failed:
            skipped.append(f"{name} is skipped, it is not installed here or does not build: {failed}")
    return peers, skipped
