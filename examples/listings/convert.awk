# Turns a listing of sgb into another form of the same graph:
#
#   sgb list "petersen()" | awk -v to=edges -f examples/listings/convert.awk > petersen.tsv
#   sgb list "petersen()" | awk -v to=dot -f examples/listings/convert.awk | dot -Tsvg > petersen.svg
#   sgb list "cycle(4)" | awk -v to=dot -v directed=1 -f examples/listings/convert.awk | dot -Tsvg > cycle.svg
#
#   to=dot      Graphviz's DOT. The label of an edge is its length.
#   to=edges    A line for each edge: two names and its length with tabs between them; an isolated vertex alone on a line,
#               in quotes. A name that is empty, has a space, or begins with # or % is in quotes, too, as CSV has them.
#               Where the first line could be the head of a table, its first name stands alone before it.
#               examples/files/to_gb.py reads all that; networkx leaves isolated vertices out, and reads the others by
#                 read_edgelist("petersen.tsv", delimiter="\t", comments=None, nodetype=lambda name: name.strip('"'),
#                               create_using=networkx.MultiGraph)
#               with data=[("weight", int)] where there are lengths, as networkx.MultiDiGraph where arcs are. (Without
#               comments=None a name ends at a "#".)
#   to=dimacs   DIMACS: "p edge" with a line "e 1 2" for each edge where all lengths are 1; else, and with directed=1,
#               "p sp" with a line "a 1 2 LENGTH" for each arc, two for an edge.
#   to=metis    METIS: a line with the neighbours of each vertex. It has no arcs, loops, parallel edges, or lengths below 1.
#   to=mtx      Matrix Market: the entries of the adjacency matrix. It has no parallel edges.
#   to=graphml  GraphML; the length of an edge is its weight.
#   to=graph6   graph6 of nauty. It has no arcs, loops or parallel edges, and no names and lengths: these are left out.
#   to=sparse6  sparse6 of nauty, with loops and parallel edges. It has no arcs, and no names and lengths, as graph6.
#   to=digraph6 digraph6 of nauty, for arcs (directed=1). It has no parallel ones, and no names and lengths, as graph6.
#
# Vertices without a name in the format have the number of their place, from 1, in GraphML from 0; comments or labels tell
# their names. Lengths are not written where all are 1, unless lengths=1 asks for them. The title that `sgb queen`
# writes before its listing is left out.
#
# A listing does not say whether its graph has edges or arcs. An edge stands on the lists of both its ends, a loop twice
# on one. So without directed=1 the arcs have to come in such pairs, with equal lengths, and each pair is written once,
# in the block that comes first. (Where arcs come in pairs by chance they are taken for edges.)
#
# Nothing is written unless all of the listing was read and is right; else there is one line on standard error, and the
# status is 1. What is refused: a listing without its head, as a refused request leaves it; a number of vertices or arcs
# that is not the head's, as where the listing is cut off; a last line without its end; an arc to a vertex that is not
# there; two vertices of one name, since a listing tells vertices apart by their names alone; arcs that do not come in
# pairs; what the format does not have.
#
#   directed=1  the arcs are arcs, and are written as they stand
#   numbers=1   edges of numbers: a vertex is the number of its place, from 1; `sgb names` has the names in this order
#   file=1      the graph is a file's (stdin): the number of arcs in the head is what the file says, and is not compared
#   resumed=1   the listing was resumed (--after, --skip) and has no head: for dot and edges. What leads to a vertex that
#               is not in it is written once. Whether vertices are missing, or arcs at its end, or whether what leads
#               out of it is an edge or an arc, cannot be seen.
#
# It keeps the graph: mawk takes some 150 bytes for each vertex and 20 for each arc, and five seconds for a million and a half
# arcs. The package sgb for Python, where it is, writes the same texts of arrays (sgb.convert).

BEGIN {
    if (to !~ /^(dot|edges|dimacs|metis|mtx|graphml|graph6|sparse6|digraph6)$/)
        fail("say what to write: -v to=dot, edges, dimacs, metis, mtx, graphml, graph6, sparse6 or digraph6")
    else if (resumed && to != "dot" && to != "edges")
        fail("a resumed listing has not all vertices, and to=" to " needs them")
    else if (numbers && to != "edges")
        fail("numbers=1 is for to=edges")
    else if (numbers && resumed)
        fail("a resumed listing has not all vertices, and numbers=1 needs them")
    else if (directed && to ~ /^(metis|graph6|sparse6)$/)
        fail("to=" to " has no arcs")
    else if (!directed && to == "digraph6")
        fail("to=digraph6 has arcs alone: say -v directed=1 where arcs are meant")
    has_both = to ~ /^(dimacs|metis|graph6)$/
    # Records end at ">" and not at the end of a line: so a last line that has no end is seen.
    RS = ">"
}

failed { next }

{
    last = split((NR > 1 ? rest ">" : "") $0, lines, "\n")
    for (i = 1; i < last && !failed; i++) {
        line = lines[i] ""
        # most lines are so, and are looked at no further
        if (vertices && substr(line, 1, 5) == "  -> " && substr(line, at = length(line) - 9) == ", length 1")
            take_arc(substr(line, 6, at - 6), "")
        else
            take(line)
    }
    rest = lines[last]
}

END {
    if (!failed)
        check()
    if (failed)
        exit 1
    if (to == "dot") write_dot()
    if (to == "edges") write_edges()
    if (to == "dimacs") write_dimacs()
    if (to == "metis") write_metis()
    if (to == "mtx") write_mtx()
    if (to == "graphml") write_graphml()
    if (to == "graph6") write_graph6()
    if (to == "sparse6") write_sparse6()
    if (to == "digraph6") write_digraph6()
}

function fail(text) {
    if (!failed)
        print "convert.awk: " text | "cat >&2"
    failed = 1
}

# ---- reading: names[i] is the vertex in place i, from 1, and lists[i] has its arcs, each with its end: the tip, and below
# a tab its length, if that is not 1. Of an edge the arc that comes first stands there; forms that want the other one,
# too, have it with a carriage return before it.

function take(line,    at) {
    if (taken < 4 && is_head(line))
        return
    if (!vertices || substr(line, 1, 5) != "  -> ")
        take_vertex(line)
    else if (at = match(line, /, length -?[0-9]+$/)) {
        take_arc(substr(line, 6, at - 6), "\t" substr(line, at + 9))
        lengths = 1
    } else
        take_vertex(line)
}

# Whether the line stands before the vertices.
function is_head(line) {
    if (is_title(line))
        return 1
    if (++taken == 1 && resumed && (titles || line == "  The graph whose official name is"))
        fail("the listing has its head: leave resumed=1 out")
    if (resumed)
        return 0
    head[taken] = line
    if (taken == 4)
        take_head()
    return 1
}

# Whether the line is the title that stands before the head of the queens' listing, or the empty line after it.
function is_title(line) {
    if (taken || !(titles ? titles == 1 && line == "" : line ~ /^Queen Moves on a [0-9]+x[0-9]+ Board$/))
        return 0
    return ++titles
}

function take_head(    words) {
    if (head[1] != "  The graph whose official name is" || head[4] != "" ||
        head[3] !~ /^  has [0-9]+ vertices and [0-9]+ arcs:$/)
        fail("no head of a listing: say -v resumed=1 where it was resumed")
    split(head[3], words, " ")
    head_vertices = words[2] + 0
    head_arcs = words[5] + 0
}

# waiting[v] has the arcs to v, each with its end, that came before v and so wait for one back; back[arc] says how many
# of them the list of v has still to have, and open how many in all. Of loops every second is the one back.
function take_vertex(name,    i, arcs_to) {
    end_list()
    if (name in place)
        fail("two vertices have the name " name ", and a listing has names alone")
    vertex = names[++vertices] = name
    place[name] = vertices
    if (!is_plain(name))
        is_quoted = 1
    if (is_waited = is_used = name in waiting) {
        open = split(waiting[name], arcs_to, "\n") - 1
        for (i = 1; i <= open; i++)
            back[arcs_to[i]]++
        delete waiting[name]
    }
}

function take_arc(tip, len,    arc) {
    arcs++
    arc = tip len
    if (directed)
        list = list arc "\n"
    else if (open && back[arc]) {
        back[arc]--
        open--
        if (has_both)
            list = list "\r" arc "\n"
    } else {
        list = list arc "\n"
        if (tip != vertex)
            waiting[tip] = waiting[tip] vertex len "\n"
        else {
            back[arc]++
            is_used = ++open
        }
    }
}

function end_list(    arc) {
    if (vertices)
        lists[vertices] = list
    if (list == "" && is_waited)
        is_tip[vertex] = 1
    list = ""
    if (open)
        for (arc in back)
            if (back[arc])
                note(arc, vertex)
    open = 0
    if (is_used)
        split("", back)
}

# Notes the arc to `tip`, whose tail and length are `arc`, as one without an arc back: the first of them in the listing is told.
function note(arc, tip,    at, tail, len, i) {
    at = index(arc, "\t")
    tail = at ? substr(arc, 1, at - 1) : arc
    len = at ? substr(arc, at) : ""
    i = place[tail]
    if (single && i > single)
        return
    at = index("\n" lists[i], "\n" tip len "\n")
    if (i == single && at > single_at)
        return
    single = i
    single_at = at
    single_tip = tip
    single_len = len == "" ? "1" : substr(len, 2)
}

# ---- whether all of it was read, and is right

function check() {
    end_list()
    if (rest != "")
        fail("the listing is cut off in the middle of a line")
    else if (!resumed && taken < 4)
        fail("no head of a listing: say -v resumed=1 where it was resumed")
    else if (!resumed && vertices != head_vertices)
        fail("the head has " head_vertices " vertices, the listing " vertices + 0 \
            ": it is cut off, or a name is like an arc's line")
    else if (!resumed && !file && arcs != head_arcs)
        fail("the head has " head_arcs " arcs, the listing " arcs + 0 ": it is cut off, or a file's (-v file=1)")
    else
        check_arcs()
    if (!failed && to ~ /^(metis|mtx|graph6|digraph6)$/)
        check_form()
}

# Whether each arc leads to a vertex, and is one of an edge if it has to be.
function check_arcs(    i, k, count, tip, arc) {
    for (tip in waiting)
        if (!resumed || tip in place) {
            count = split(waiting[tip], arc, "\n")
            for (k = 1; k < count; k++)
                note(arc[k], tip)
        }
    for (i = 1; directed && !single && i <= vertices; i++) {
        count = split(lists[i], arc, "\n")
        for (k = 1; k < count && !single; k++) {
            is_tip[tip = tip_of(arc[k])] = 1
            if (!resumed && !(tip in place))
                note(names[i] substr(arc[k], length(tip) + 1), tip)
        }
    }
    if (single && single_tip in place)
        fail("the arc from " names[single] " to " single_tip ", length " single_len \
            ", is no edge, since none leads back: say -v directed=1 where arcs are meant")
    else if (single)
        fail("no vertex has the name " single_tip ", but an arc leads there from " names[single])
}

# Whether the format has such a graph.
function check_form(    i, k, count, arc, tip, met) {
    for (i = 1; i <= vertices; i++) {
        count = split(lists[i], arc, "\n")
        split("", met)
        for (k = 1; k < count; k++) {
            tip = tip_of(arc[k])
            if (to == "metis" && len_of(arc[k]) < 1)
                return fail("to=metis has no lengths below 1, and there is one at " names[i])
            if (tip == names[i] && to ~ /^(metis|graph6)$/)
                return fail("to=" to " has no loops, and there is one at " names[i])
            if (met[tip]++)
                return fail("to=" to " has no parallel edges, and there are some from " names[i] " to " tip)
        }
    }
}

# ---- what the formats have in common

function is_back(arc) { return substr(arc, 1, 1) == "\r" }

function tip_of(arc,    at) {
    if (is_back(arc))
        arc = substr(arc, 2)
    at = index(arc, "\t")
    return at ? substr(arc, 1, at - 1) : arc
}

function len_of(arc,    at) {
    at = index(arc, "\t")
    return at ? substr(arc, at + 1) : "1"
}

# ---- the formats

# Names have no quotes and no backslashes, so they stand in quotes as they are.
function write_dot(    i, k, count, arc) {
    print (directed ? "digraph" : "graph") " \"" head[2] "\" {"
    for (i = 1; i <= vertices; i++) {
        print "  \"" names[i] "\";"
        count = split(lists[i], arc, "\n")
        for (k = 1; k < count; k++)
            print "  \"" names[i] (directed ? "\" -> \"" : "\" -- \"") tip_of(arc[k]) \
                "\"" (lengths ? " [label=\"" len_of(arc[k]) "\"]" : "") ";"
    }
    print "}"
}

function write_edges(    i, k, count, arc, is_begun, is_changed) {
    is_changed = numbers || lengths || resumed || is_quoted
    for (i = 1; i <= vertices; i++) {
        count = split(lists[i], arc, "\n")
        if (count ? !is_begun && is_like_head(i, arc[1]) : !(names[i] in is_tip))
            print numbers ? i : "\"" names[i] "\""
        is_begun = is_begun || count || !(names[i] in is_tip)
        for (k = 1; k < count; k++)
            if (is_changed)
                print in_edges(names[i]) "\t" in_edges(tip_of(arc[k])) (lengths ? "\t" len_of(arc[k]) : "")
            else
                print names[i] "\t" arc[k]
    }
}

function in_edges(name) { return numbers ? place[name] : is_plain(name) ? name : "\"" name "\"" }

# Whether a name can be taken for nothing else, between tabs: others are in quotes, which are in none.
function is_plain(name) { return name ~ /^[^#% ][^ ]*$/ }

# Whether the first line, of these two names, can be taken for the head of a table: neither stands in another line.
function is_like_head(i, tip,    j) {
    if (numbers || lengths || vertices < 3 || names[i] ~ /^-?[0-9]+$/ || tip ~ /^-?[0-9]+$/ || lists[i] != tip "\n" || lists[place[tip]] != "")
        return 0
    for (j = i + 1; j <= vertices; j++)
        if (index("\n" lists[j], "\n" tip "\n") || index("\n" lists[j], "\n" names[i] "\n"))
            return 0
    return 1
}

# A comment for each vertex: the name of its number, from 1.
function write_names(sign,    i) {
    print sign " " head[2]
    for (i = 1; i <= vertices; i++)
        print sign " vertex " i " is " names[i]
}

# Edges of length 1 as in the problems of colouring, else arcs as in those of shortest paths: for an edge one each way.
function write_dimacs(    i, k, count, arc, is_edges) {
    is_edges = !directed && !lengths
    write_names("c")
    print is_edges ? "p edge " vertices + 0 " " arcs / 2 : "p sp " vertices + 0 " " arcs + 0
    for (i = 1; i <= vertices; i++) {
        count = split(lists[i], arc, "\n")
        for (k = 1; k < count; k++)
            if (!is_edges)
                print "a " i " " place[tip_of(arc[k])] " " len_of(arc[k])
            else if (!is_back(arc[k]))
                print "e " i " " place[tip_of(arc[k])]
    }
}

# A line for each vertex: its neighbours, each with the length of the edge where there are lengths.
function write_metis(    i, k, count, arc, line) {
    write_names("%")
    print vertices + 0 " " arcs / 2 (lengths ? " 001" : "")
    for (i = 1; i <= vertices; i++) {
        line = ""
        count = split(lists[i], arc, "\n")
        for (k = 1; k < count; k++)
            line = line (line == "" ? "" : " ") place[tip_of(arc[k])] (lengths ? " " len_of(arc[k]) : "")
        print line
    }
}

# A line for each entry, row and column and length; of a symmetric matrix those that are not above the diagonal.
function write_mtx(    i, k, count, arc, tip, entries) {
    for (i = 1; i <= vertices; i++)
        entries += gsub(/\n/, "\n", lists[i])
    print "%%MatrixMarket matrix coordinate " (lengths ? "integer " : "pattern ") (directed ? "general" : "symmetric")
    write_names("%")
    print vertices + 0 " " vertices + 0 " " entries + 0
    for (i = 1; i <= vertices; i++) {
        count = split(lists[i], arc, "\n")
        for (k = 1; k < count; k++) {
            tip = place[tip_of(arc[k])]
            print (directed ? i " " tip : tip " " i) (lengths ? " " len_of(arc[k]) : "")
        }
    }
}

function write_graphml(    i, k, count, arc) {
    print "<?xml version=\"1.0\" encoding=\"UTF-8\"?>"
    print "<graphml xmlns=\"http://graphml.graphdrawing.org/xmlns\">"
    print "  <key id=\"id\" for=\"graph\" attr.name=\"name\" attr.type=\"string\"/>"
    print "  <key id=\"name\" for=\"node\" attr.name=\"name\" attr.type=\"string\"/>"
    if (lengths)
        print "  <key id=\"weight\" for=\"edge\" attr.name=\"weight\" attr.type=\"long\"/>"
    print "  <graph edgedefault=\"" (directed ? "directed" : "undirected") "\">"
    print "    <data key=\"id\">" escaped(head[2]) "</data>"
    for (i = 1; i <= vertices; i++)
        print "    <node id=\"n" i - 1 "\"><data key=\"name\">" escaped(names[i]) "</data></node>"
    for (i = 1; i <= vertices; i++) {
        count = split(lists[i], arc, "\n")
        for (k = 1; k < count; k++)
            print "    <edge source=\"n" i - 1 "\" target=\"n" place[tip_of(arc[k])] - 1 "\"" \
                (lengths ? "><data key=\"weight\">" len_of(arc[k]) "</data></edge>" : "/>")
    }
    print "  </graph>"
    print "</graphml>"
}

function escaped(text) {
    gsub(/&/, "\\&amp;", text)
    gsub(/</, "\\&lt;", text)
    gsub(/>/, "\\&gt;", text)
    return text
}

# The number of vertices, then a bit for each pair, those of (1, 2), (1, 3), (2, 3), (1, 4), ..; six bits a byte.
function write_graph6(    j) {
    write_size()
    for (j = 2; j <= vertices; j++)
        write_row(j, j - 1)
    end_bits(0)
}

# The same, with a bit for each pair, row by row.
function write_digraph6(    i) {
    printf "&"
    write_size()
    for (i = 1; i <= vertices; i++)
        write_row(i, vertices)
    end_bits(0)
}

# The number of vertices, then the edges by their greater ends: a bit, whether to go on to the next vertex, and a vertex:
# a greater one is gone to, and any other is the smaller end of an edge. Vertices are counted from 0.
function write_sparse6(    i, j, k, count, arc, ends, wide, now) {
    printf ":"
    write_size()
    # not every awk has powers
    powers[0] = 1
    for (k = 0; k < 40; k++)
        powers[k + 1] = 2 * powers[k]
    for (wide = 0; powers[wide] < vertices;)
        wide++
    for (i = 1; i <= vertices; i++) {
        count = split(lists[i], arc, "\n")
        for (k = 1; k < count; k++) {
            j = place[tip_of(arc[k])]
            ends[j] = ends[j] i - 1 " "
        }
    }
    for (j = now = 0; j < vertices; j++) {
        count = split(ends[j + 1], arc, " ")
        if (count && j > now + 1) {
            write_item(1, j, wide)
            now = j
        }
        for (k = 1; k <= count; k++) {
            write_item(j > now, arc[k], wide)
            now = j
        }
    }
    # ones fill the last byte; after a zero where they would be a loop of the last vertex
    if (bits && 6 - bits > wide && vertices == powers[wide] && now == vertices - 2)
        write_bit(0)
    end_bits(1)
}

# The bits that are no byte yet are `bits` in number, and are those of `waits`.
function write_item(bit, value, width) {
    waits = (2 * waits + bit) * powers[width] + value
    for (bits += 1 + width; bits >= 6; bits -= 6) {
        write_bits(int(waits / powers[bits - 6]), 1)
        waits %= powers[bits - 6]
    }
}

function write_bit(bit) {
    waits = 2 * waits + bit
    if (++bits == 6) {
        write_bits(waits, 1)
        bits = waits = 0
    }
}

# A bit for each of the first `last` vertices: whether it is a tip of the list of i.
function write_row(i, last,    j, k, count, arc, is_in) {
    count = split(lists[i], arc, "\n")
    for (k = 1; k < count; k++)
        is_in[place[tip_of(arc[k])]] = 1
    for (j = 1; j <= last; j++)
        write_bit(j in is_in)
}

function end_bits(bit) {
    while (bits)
        write_bit(bit)
    print ""
}

function write_size() {
    if (vertices > 62)
        printf "%s", (vertices > 258047 ? "~~" : "~")
    write_bits(vertices + 0, vertices > 258047 ? 6 : vertices > 62 ? 3 : 1)
}

function write_bits(value, bytes) {
    if (bytes > 1)
        write_bits(int(value / 64), bytes - 1)
    printf "%c", value % 64 + 63
}
