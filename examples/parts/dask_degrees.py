#!/usr/bin/env python3
"""How many vertices of a graph have how many arcs, counted by Dask's distributed scheduler.

    examples/parts/dask_degrees.py "board(1000,1000,0,0,1,0,0)"
    examples/parts/dask_degrees.py "simplex(44000,-2,0,0,0,0,0)" --scheduler tcp://anna:8786

A generator's graph is not built, so it may have 10^9 vertices; another is built for each task. Its vertices are cut
into parts, and each is a task: a worker goes through it in chunks by the package sgb, and hands back counts alone.
The first line has the numbers of vertices and arcs; each further one a degree, which is how many arcs stand on a
vertex's list, and how many vertices have it.

Without --scheduler there are --workers processes on this machine, two if it is not said. With it the tasks go to the
scheduler at that address; the package sgb (a wheel, or PYTHONPATH) has to be on each of its workers as it is here, and
so have the versions of Python and Dask. What a lost worker had is done again by another one. A task whose workers were
lost again and again, as for want of memory, ends all: then a smaller --chunk or --part helps.

Nothing is written unless each part came once, its vertices add up to those of the graph, and its arcs to the number
that the head of the listing has. Else a line says what is wrong, and the status is 1.

It needs distributed (Debian package python3-distributed) and the package sgb, which is found beside this folder, too.
"""

import argparse
import collections
import concurrent.futures
import contextlib
import functools
import logging
import operator
import os
import sys
import tempfile

sys.path.append(os.path.join(os.path.dirname(os.path.abspath(__file__)), "..", "..", "python"))

PART = 1_000_000  # vertices of a task
CHUNK = 16_384  # vertices of a chunk, whose lists a worker holds


class Wrong(Exception):
    """What does not agree."""


def counted(text, chunk, first, count):
    """A task: of some vertices which they are, how many arcs they have, and how many of them have how many."""
    import sgb

    seen, arcs, degrees = 0, 0, collections.Counter()
    with sgb.graph(text) as graph:
        for some in graph.chunks(chunk, first, count, lengths=False):
            starts = some.starts.tolist()
            degrees.update(map(operator.sub, starts[1:], starts))
            seen += some.n
            arcs += len(some.tips)
    return first, seen, arcs, degrees


def told(text):
    """A task: how many arcs there are, as the head of the listing says."""
    import sgb

    with sgb.graph(text) as graph:
        return graph.m


def vertices_of(text):
    """How many vertices there are."""
    import sgb

    with sgb.graph(text) as graph:
        return graph.n


def degrees_of(client, text, part=PART, chunk=CHUNK, heard=None):
    """The numbers of vertices and arcs, and how many vertices have each degree.

    `heard` is called after each part that came, with how many are still to come.
    """
    import distributed

    n = vertices_of(text)
    head = client.submit(told, text, pure=False)
    wanted = {first: min(part, n - first) for first in range(0, n, part)}
    count = functools.partial(counted, text, chunk)
    vertices, arcs, degrees = 0, 0, collections.Counter()
    # no task is held here once it came, so that a worker lost later has no part in it
    for _, came in distributed.as_completed(
        client.map(count, list(wanted), list(wanted.values()), pure=False), with_results=True
    ):
        if isinstance(came, BaseException):
            raise came
        first, seen, more, found = came
        if wanted.pop(first, None) != seen:
            raise Wrong(f"the part from vertex {first} on came twice, or with {seen} vertices")
        vertices, arcs = vertices + seen, arcs + more
        degrees.update(found)
        if heard:
            heard(len(wanted))
    said = head.result()
    if wanted or vertices != n:
        raise Wrong(f"{vertices} vertices came, and the graph has {n}")
    if arcs != said:
        raise Wrong(f"{arcs} arcs came, and the head has {said}")
    if sum(degrees.values()) != n or sum(degree * count for degree, count in degrees.items()) != arcs:
        raise Wrong("the degrees do not add up to the arcs")
    return n, arcs, degrees


def cluster_here(workers, folder):
    """Processes on this machine, which keep what they keep in a folder."""
    import distributed

    return distributed.LocalCluster(
        n_workers=workers, threads_per_worker=1, dashboard_address=":0", silence_logs=logging.CRITICAL,
        local_directory=folder,
    )


def size(word):
    """A number from 1 on."""
    if not word.isascii() or not word.isdigit() or int(word) < 1:
        raise argparse.ArgumentTypeError(f"{word} is no number from 1 on")
    return int(word)


def words():
    reader = argparse.ArgumentParser(description=__doc__.partition("\n")[0])
    reader.add_argument("text", metavar="EXPR", help="the graph, best one of board, simplex, subsets, or a short name of one")
    reader.add_argument("--scheduler", metavar="ADDRESS", help="that of a scheduler, as tcp://anna:8786")
    reader.add_argument("--workers", metavar="N", type=size, default=2, help="processes here, without --scheduler (2)")
    reader.add_argument("--part", metavar="N", type=size, default=PART, help=f"vertices of a task ({PART})")
    reader.add_argument("--chunk", metavar="N", type=size, default=CHUNK, help=f"vertices of a chunk ({CHUNK})")
    return reader.parse_args()


def main():
    given = words()
    logging.disable()  # one line says what went wrong
    try:
        import distributed

        # what is refused is refused before a worker is asked
        vertices_of(given.text)
        with contextlib.ExitStack() as stack:
            where = given.scheduler
            if not where:
                folder = stack.enter_context(tempfile.TemporaryDirectory())
                where = stack.enter_context(cluster_here(given.workers, folder))
            client = stack.enter_context(distributed.Client(where))
            n, m, degrees = degrees_of(client, given.text, given.part, given.chunk)
    except ModuleNotFoundError as why:
        sys.exit(f"dask_degrees.py: {why}: it takes distributed and sgb here and on each worker")
    except concurrent.futures.CancelledError:
        sys.exit("dask_degrees.py: the scheduler is gone, or has dropped the tasks")
    except Exception as why:  # whatever it is, nothing was written
        sys.exit(f"dask_degrees.py: {' '.join(str(why).split()) or type(why).__name__}")
    print(n, "vertices,", m, "arcs")
    for degree, count in sorted(degrees.items()):
        print(degree, count)


if __name__ == "__main__":
    main()
