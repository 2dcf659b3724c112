"""SciPy: its search from all sources at once. It talks as protocol.h says."""

import sys
import time

import numpy
import scipy
from scipy.sparse import csr_matrix
from scipy.sparse.csgraph import dijkstra

HEADER = 10
RECORD = numpy.dtype([("from", ">u2"), ("to", ">u2"), ("cost", ">u8")])
NONE = 2**16 - 1
FAR = 2**64 - 1


def read_plan(path):
    """The plan as a matrix of costs."""
    with open(path, "rb") as file:
        data = file.read()
    stations = int.from_bytes(data[6:8], "big")
    links = numpy.frombuffer(data, RECORD, offset=HEADER)
    ends = links["from"].astype(int), links["to"].astype(int)
    return csr_matrix((links["cost"].astype(float), ends), shape=(stations, stations))


def work_table(graph):
    return dijkstra(graph, directed=True, return_predecessors=True)


def least_time(graph, calls):
    least = None
    for _ in range(calls):
        start = time.process_time_ns()
        work_table(graph)
        taken = time.process_time_ns() - start
        least = taken if least is None else min(least, taken)
    return least


def write_table(path, costs, predecessors):
    reached = numpy.isfinite(costs)
    told = numpy.full(costs.shape, FAR, numpy.uint64)
    told[reached] = costs[reached].astype(numpy.uint64)
    with open(path, "wb") as out:
        out.write(told.tobytes())
        out.write(numpy.where(predecessors < 0, NONE, predecessors).astype(numpy.uint16).tobytes())


def main():
    print(f"SciPy {scipy.__version__}\nsearch", flush=True)
    graph = None
    for line in sys.stdin:
        match line.split():
            case ["load", plan]:
                graph = read_plan(plan)
                print("loaded", flush=True)
            case ["run", _, calls]:
                print(least_time(graph, int(calls)), flush=True)
            case ["dump", _, table]:
                write_table(table, *work_table(graph))
                print("dumped", flush=True)


if __name__ == "__main__":
    main()
