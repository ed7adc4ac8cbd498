"""Forms that networkx reads, for to_gb.py: GraphML, GML."""

import io
import re

from given import Given, Wrong, number


def graphml(text, words):
    if len(re.findall(r"<graph[\s/>]", text)) > 1:
        raise Wrong("there is more than one graph, or one inside another")
    return by_networkx(lambda networkx: networkx.read_graphml(io.BytesIO(text.encode())), text, words)


def gml(text, words):
    return by_networkx(lambda networkx: networkx.parse_gml(text, label=None), text, words)


def by_networkx(read, text, words):
    try:
        import networkx
    except ImportError:
        raise Wrong(f"networkx reads {words.form}, and is not installed (Debian package python3-networkx)") from None
    try:
        found = read(networkx)
    except Exception as why:  # of networkx, or of the readers that it calls
        raise Wrong(f"networkx takes it for no {words.form}: {' '.join(str(why).split())[:200]}") from None
    lines = list(enumerate(text.split("\n"), 1))
    given = Given(len(found), found.is_directed() or words.directed, names_of(found), lines)
    place = {node: v for v, node in enumerate(found)}
    for u, v, length in found.edges(data="weight", default=1):
        given.add(place[u], place[v], number(str(length), f"the weight of the edge from {u} to {v}", None))
    return given


def names_of(found):
    """The attribute that all nodes have a name in, or their ids."""
    for key in ("name", "label"):
        names = [str(data[key]) for _, data in found.nodes(data=True) if key in data]
        if len(names) == len(found):
            return names
    return [str(node) for node in found]
