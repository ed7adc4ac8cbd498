"""The program's names, list and save by the Python package, to hold it against conformance/graphs.tsv: caller.py COMMAND TEXT."""

import sys

import sgb


def listing(graph):
    yield f"  The graph whose official name is\n{graph.id}\n  has {graph.n} vertices and {graph.m} arcs:\n\n"
    names = graph.names()
    for rows in graph.chunks():
        for v in rows:
            yield names[v] + "\n"
            for tip, length in zip(rows[v].tolist(), rows.lengths_of(v).tolist()):
                yield f"  -> {names[tip]}, length {length}\n"


def main():
    command, text = sys.argv[1:]
    try:
        graph = sgb.graph(text)
    except sgb.GraphError as error:
        if error.byte is None and error.code < 100:
            sys.stderr.write(f"Something went wrong (panic code {error.code})!\n")
            sys.exit(1)
        sys.stderr.write("sgb: expression too large\n" if error.byte is None else f"sgb: {error}\n")
        sys.exit(2)
    if command == "save":
        sys.stdout.buffer.write(graph.save())
    elif command == "names":
        sys.stdout.writelines(name + "\n" for name in graph.names())
    else:
        sys.stdout.writelines(listing(graph))


if __name__ == "__main__":
    main()
