# Draws a listing of sgb as SVG.
#
#   sgb list "board(8,8,0,0,5,0,0)" | awk -f examples/listings/draw.awk > knight.svg
#   sgb list "cycle(7)" | awk -v directed=1 -v on=circle -f examples/listings/draw.awk > cycle.svg
#
# Coordinates are taken from the names. Vectors of one, two or three entries are places of a board; where two or three have
# the same sum everywhere, they are places on a line or in a triangle. The names `a,b` of a product count as vectors too, and
# `a--b` of a line graph is in the middle between a and b. All else stands on a circle, in the order of the listing, and in
# its middle the one vertex that is joined with all others. `on` chooses board, triangle or circle. A move that would pass
# over another place, or that wraps around a side of a board, is an arc; so are parallel edges.
#
# With rim=K, the first cycle of K vertices that a search finds is on the circle, and the others are inside, each on the side
# where its neighbours on the rim are. With on=columns, as bi_complete is drawn, all edges lead from one column to the other.
#
#   lengths=1   each edge with its length
#   colours=1   edges of one length in one colour
#   order=1     at each vertex the place of each arc on its list, counted from 1: the order in which programs meet them
#
# What `sgb save` writes is drawn too, and so are graphs in which two vertices have one name, which a listing does not tell apart:
#
#   sgb save "lines(board(3,0,0,0,-1,1,0),0)" | awk -f examples/listings/draw.awk > lines.svg
#
# A listing does not say whether its graph is directed: without directed=1 each edge, which stands on the lists of both its
# ends, is drawn once. Where the listing has no head, is not whole, or has a name twice, nothing is drawn: the status is 1,
# and a line on standard error says why.

# Records end at ">" and not at the end of a line: so a last line that has no end is seen.
BEGIN { RS = ">" }

failed { next }

{
    count = split((NR > 1 ? rest ">" : "") $0, lines, "\n")
    for (i = 1; i < count; i++) take(lines[i] "")
    rest = lines[count]
}

END {
    if (failed) exit 1
    if (rest != "") fail("the listing is cut off in the middle of a line")
    if (is_file) follow_lists()
    else if (line_number < 4) fail("no head of a whole listing")
    if (n + 0 != wanted_vertices) fail((n + 0) " vertices, and " wanted_vertices " in the head")
    if (m + 0 != wanted_arcs) fail((m + 0) " arcs, and " wanted_arcs " in the head")
    find_tips()
    find_places()
    if (rim) draw_rim()
    else if (on == "circle") draw_circle()
    else if (on == "columns") draw_columns()
    else draw_places()
    write()
}

function fail(why) {
    if (failed) return
    print "draw.awk: line " line_number + 0 ": " why | "cat >&2"
    close("cat >&2")
    failed = 1
    exit 1
}

# ---------------------------------------------------------------------------------------------------------------------
# Reading: the head, and then vertices, each with the arcs on its list.

function take(line,    words, at) {
    line_number++
    if (line_number == 1 && line ~ /^\* GraphBase graph \(util_types [ZIVSA]+,[0-9]+V,[0-9]+A\)$/) is_file = 1
    if (is_file) { take_of_file(line); return }
    if (line_number == 1 && line != "  The graph whose official name is" || line_number == 4 && line != "" ||
        line_number == 3 && line !~ /^  has [0-9]+ vertices and [0-9]+ arcs:$/)
        fail("no head of a whole listing")
    if (line_number == 2) id = line
    if (line_number == 3) {
        split(line, words, " ")
        wanted_vertices = words[2] + 0
        wanted_arcs = words[5] + 0
    }
    if (line_number <= 4) return
    if (n > 0 && line ~ /^  -> .*, length -?[0-9]+$/) {
        # an arc of the vertex named last
        at = match(line, /, length -?[0-9]+$/)
        from[++m] = n
        tip_name[m] = substr(line, 6, at - 6)
        len[m] = substr(line, at + 9)
        return
    }
    if (line in place) fail("a name that came before: " line)
    name[++n] = line
    place[line] = n
}

# ---------------------------------------------------------------------------------------------------------------------
# Reading a `.gb` file: the graph's record, vertices, and arc records, which the lists lead through.

# A record goes on after a comma, and after a `\` inside a string.
function take_of_file(line,    at, fields) {
    if (line ~ /^\* /) { section = substr(line, 3); return }
    if (begun ~ /\\$/) line = substr(begun, 1, length(begun) - 1) line
    else line = begun line
    begun = ""
    if (line ~ /[,\\]$/) { begun = line; return }
    if (section == "Arcs") {
        split(line, fields, ",")
        records_read += 0
        tip_of[records_read] = substr(fields[1], 2) + 1
        next_of[records_read] = fields[2]
        len_of[records_read++] = fields[3]
        return
    }
    at = index(substr(line, 2), "\"") + 1
    split(substr(line, at + 2), fields, ",")
    if (section == "Vertices") {
        name[++n] = substr(line, 2, at - 2)
        first_of[n] = fields[1]
    } else {
        id = substr(line, 2, at - 2)
        wanted_vertices = fields[1] + 0
        wanted_arcs = fields[2] + 0
    }
}

function follow_lists(    v, k) {
    if (section !~ /^Checksum / || begun != "") fail("the file is cut off")
    for (v = 1; v <= n; v++)
        for (k = first_of[v]; k != "0"; k = next_of[substr(k, 2)]) {
            if (!(substr(k, 2) in tip_of) || m > 4 * records_read) fail("a list that leads nowhere: " name[v])
            from[++m] = v
            tip[m] = tip_of[substr(k, 2)]
            len[m] = len_of[substr(k, 2)]
        }
}

# ---------------------------------------------------------------------------------------------------------------------
# Edges: of an undirected graph one record of two.

function find_tips(    k, u, v, loops) {
    for (k = 1; k <= m; k++) {
        if (!is_file && !(tip_name[k] in place)) fail("an arc to a name that no vertex has: " tip_name[k])
        if (!is_file) tip[k] = place[tip_name[k]]
        records[from[k], tip[k], len[k]]++
    }
    for (k = 1; k <= m; k++) {
        u = from[k]
        v = tip[k]
        rank[k] = ++listed[u]
        is_drawn[k] = directed || u < v || (u == v && ++loops[u, len[k]] % 2)
        if (!directed && (records[u, v, len[k]] != records[v, u, len[k]] || u == v && records[u, v, len[k]] % 2))
            fail("not a graph of edges, which directed=1 draws: " name[u] " and " name[v])
        if (u == v) has_loop[u] = 1
        else if (!((u, v) in others)) {
            others[u, v] = 1
            neighbours[u]++
        }
    }
}

# ---------------------------------------------------------------------------------------------------------------------
# Where vertices stand.

# The entries of names, as coord[vertex, 1..d], and what the drawing stands on.
function find_places(    v, k, entries, sum, sums, has_sums) {
    scale = n && name[1] ~ /--/ ? 2 : 1
    for (v = 1; v <= n && d >= 0; v++) {
        sum = read_vector(v, name[v])
        if (v > 1 && sum != sums) has_sums = 1
        sums = sum
    }
    if (on == "" && id ~ /^bi_complete\(/) on = "columns"
    if (on == "") on = d <= 0 ? "circle" : d >= 2 && !has_sums && n > 1 && id !~ /^board/ ? "triangle" : "board"
    if (on !~ /^(circle|columns|board|triangle)$/) fail("on is board, triangle, columns or circle")
    if (on != "circle" && on != "columns" && d <= 0) fail("names that are no vectors of one to three entries: on=circle draws them")
    if (on == "triangle" && (d < 2 || has_sums)) fail("names that have no common sum: on=board draws them")
    for (v = 1; v <= n; v++) if (length(name[v]) > longest) longest = length(name[v])
    if (id ~ /^board\([-0-9,]*\)$/) {
        split(id, entries, /[(,)]/)
        piece = entries[6] < 0 ? -entries[6] : entries[6] + 0
    }
}

# The sum of a vertex's entries; d is -1 where its name is no vector of so many as the others have.
function read_vector(v, text,    at, k, entries, count, sum) {
    at = scale == 2 ? index(text, "--") : 0
    if (scale == 2 && at == 0) { d = -1; return 0 }
    if (at > 0) {
        sum = read_vector_part(v, substr(text, 1, at - 1), v > 1)
        return sum + read_vector_part(v, substr(text, at + 2), 1)
    }
    return read_vector_part(v, text, v > 1)
}

function read_vector_part(v, text, is_known,    k, entries, count, sum) {
    count = text ~ /^[0-9]+([.,][0-9]+)*$/ ? split(text, entries, /[.,]/) : 0
    if (d < 0 || count == 0 || count > 3 || (is_known && count != d) || (scale == 2 && count == 1)) { d = -1; return 0 }
    d = count
    for (k = 1; k <= d; k++) {
        coord[v, k] += entries[k]
        sum += entries[k]
    }
    return sum
}

function draw_places(    v, a, b, c, k) {
    has_labels = longest <= 5 && scale == 1
    is_solid = d == 3 && on == "board"
    r = !has_labels || is_solid ? 5 : longest < 3 ? 10 : 4 + 2.6 * longest
    cell = is_solid ? 84 : has_labels ? 4.2 * r : 52
    lines_only = on == "triangle" ? d == 2 : d == 1
    for (v = 1; v <= n; v++) {
        a = coord[v, 1] / scale
        b = coord[v, 2] / scale
        c = coord[v, 3] / scale
        if (lines_only) set(v, a * cell, 0)
        else if (on == "triangle") set(v, (c - b) * cell / 2, (b + c) * cell * 0.866)
        else if (d == 2) set(v, b * cell, a * cell)
        else set(v, b * cell + c * cell * 0.43, a * cell - c * cell * 0.29)
        if ((coord[v, 1], coord[v, 2], coord[v, 3]) in at_place) fail("two vertices in one place: " name[v])
        at_place[coord[v, 1], coord[v, 2], coord[v, 3]] = v
    }
    if (on == "board" && d == 2 && scale == 1) squares()
    if (on == "triangle" && d == 3 && scale == 1) triangles()
    for (k = 1; k <= m; k++) if (is_drawn[k]) move(k)
    for (v = 1; v <= n; v++)
        if (is_solid && has_labels) dot(v, "start", x[v] + 5, y[v] + 13)
        else dot(v, has_labels ? "middle" : "", x[v], y[v] + 3.4)
}

function set(v, across, down) {
    x[v] = across
    y[v] = down
    see(across, down, r + 4)
}

# The fields of a board, dark and light by turns.
function squares(    v, half) {
    half = cell / 2
    for (v = 1; v <= n; v++) {
        ground = ground "<rect x=\"" num(x[v] - half) "\" y=\"" num(y[v] - half) "\" width=\"" num(cell) "\" height=\"" \
            num(cell) "\" fill=\"" ((coord[v, 1] + coord[v, 2]) % 2 ? "#efe3cd" : "#fbf6ec") "\"/>\n"
        see(x[v], y[v], half)
    }
}

# The triangles of three places, one unit at each of the three entries in turn.
function triangles(    v, a, b, c, left, right) {
    for (v = 1; v <= n; v++) {
        a = coord[v, 1]
        b = coord[v, 2]
        c = coord[v, 3]
        if (((a - 1, b + 1, c) in at_place) && ((a - 1, b, c + 1) in at_place)) {
            left = at_place[a - 1, b + 1, c]
            right = at_place[a - 1, b, c + 1]
            ground = ground "<path d=\"M" point(x[v], y[v]) " L" point(x[left], y[left]) " L" point(x[right], y[right]) \
                " Z\" fill=\"#efe3cd\"/>\n"
        }
    }
}

# One move between places: straight where nothing lies between, else an arc.
function move(k,    u, v, t, step, square, common, nth, is_wrapped, is_bent, bend) {
    u = from[k]
    v = tip[k]
    nth = drawn[u, v]++
    drawing = k
    if (u == v) { loop(u, 0.7, -0.7, nth); return }
    for (t = 1; t <= d; t++) {
        step = coord[v, t] - coord[u, t]
        square += step * step
        common = gcd(common, step < 0 ? -step : step)
    }
    is_wrapped = piece && square != piece * len[k] * len[k]
    is_bent = nth || is_wrapped || passes_over(u, v, common)
    if (lines_only) bend = is_bent ? cell * (0.26 * common + 0.2 * nth + 0.12) : 0
    else {
        bend = is_bent ? cell * ((is_wrapped ? 0.4 : 0.14) + 0.06 * common + 0.12 * nth) : 0
        if (bend > cell * 0.47) bend = cell * 0.47
    }
    # an edge stands off to one side, however it is directed; two arcs to and fro stand apart
    if (directed && bend == 0 && ((v, u) in others)) bend = cell * 0.1
    else if (lines_only && is_wrapped) bend = -bend
    if (!directed && (y[u] > y[v] || (y[u] == y[v] && x[u] > x[v]))) bend = -bend
    edge(u, v, bend, is_wrapped, lines_only || is_wrapped ? 0.06 : 0.25)
}

# Whether another vertex lies on the straight way from u to v, which has a place at each of `common` equal steps.
function passes_over(u, v, common,    k, a, b, c) {
    for (k = 1; k < common; k++) {
        a = coord[u, 1] + (coord[v, 1] - coord[u, 1]) / common * k
        b = d < 2 ? coord[u, 2] : coord[u, 2] + (coord[v, 2] - coord[u, 2]) / common * k
        c = d < 3 ? coord[u, 3] : coord[u, 3] + (coord[v, 3] - coord[u, 3]) / common * k
        if ((a, b, c) in at_place) return 1
    }
    return 0
}

# On a circle, and one in its middle.
function draw_circle(    v, count, middle, spots) {
    for (v = 1; v <= n; v++) if (neighbours[v] == n - 1) { count++; middle = v }
    if (count != 1 || n < 5) middle = 0
    spots = n - (middle > 0)
    start_circle(spots)
    count = 0
    for (v = 1; v <= n; v++)
        if (v == middle) set(v, 0, 0)
        else set_on_circle(v, count++, spots)
    join_on_circle()
}

function start_circle(spots) {
    r = 5.5
    radius = spots * 30 / 6.2832
    if (radius < 95) radius = 95
}

function set_on_circle(v, number, spots,    turn) {
    turn = number / spots * 6.283185307 - 1.570796327
    set(v, radius * cos(turn), radius * sin(turn))
}

# The edges, and the vertices with their names outside.
function join_on_circle(    k, u, v, nth, across, down, size, off) {
    for (k = 1; k <= m; k++) if (is_drawn[k]) {
        u = from[k]
        v = tip[k]
        nth = drawn[u, v]++
        drawing = k
        size = sqrt(x[u] * x[u] + y[u] * y[u])
        if (u == v) loop(u, size < 1 ? 0.7 : x[u] / size, size < 1 ? -0.7 : y[u] / size, nth)
        else edge(u, v, nth ? 9 * nth : directed && ((v, u) in others) ? 5 : 0, 0, 0.25)
    }
    for (v = 1; v <= n; v++) {
        size = sqrt(x[v] * x[v] + y[v] * y[v])
        if (size < radius - 1) { dot(v, rim ? "" : "start", r + 4, -r - 3); continue }
        across = x[v] / size
        down = y[v] / size
        off = r + ((v in has_loop) ? 17 + 7 * drawn[v, v] : 6)
        dot(v, across > 0.15 ? "start" : across < -0.15 ? "end" : "middle", x[v] + across * off, y[v] + down * (off + 2) + 3.4)
    }
}

# The two sides of a bipartite graph, each in the order of the listing; a vertex without neighbours stands on the first.
function draw_columns(    k, v, u, nth, first, last, queue, count, across, down) {
    for (k = 1; k <= m; k++) {
        out[from[k], ++degree[from[k]]] = tip[k]
        if (directed) out[tip[k], ++degree[tip[k]]] = from[k]
    }
    for (v = 1; v <= n; v++) {
        if (side[v]) continue
        side[v] = 1
        queue[first = last = 1] = v
        for (; first <= last; first++)
            for (k = 1; k <= degree[queue[first]]; k++) {
                u = out[queue[first], k]
                if (side[u] == side[queue[first]])
                    fail("no two columns, since the edge of " name[queue[first]] " and " name[u] " closes an odd cycle")
                if (!side[u]) { side[u] = 3 - side[queue[first]]; queue[++last] = u }
            }
    }
    for (v = 1; v <= n; v++) count[side[v]]++
    r = 5.5
    across = 130 + 8 * (count[1] > count[2] ? count[1] : count[2])
    for (v = 1; v <= n; v++) {
        down = (++spot[side[v]] - (count[side[v]] + 1) / 2) * 34
        set(v, side[v] == 1 ? 0 : across, down)
        dot(v, side[v] == 1 ? "end" : "start", side[v] == 1 ? -r - 6 : across + r + 6, down + 3.4)
    }
    for (k = 1; k <= m; k++) if (is_drawn[k]) {
        nth = drawn[from[k], tip[k]]++
        drawing = k
        edge(from[k], tip[k], nth ? 9 * nth : directed && ((tip[k], from[k]) in others) ? 5 : 0, 0, 0.25)
    }
}

# A cycle of `rim` vertices on the circle, and the others inside.
function draw_rim(    k, v, u, across, down, size, spot, taken) {
    for (k = 1; k <= m; k++) out[from[k], ++degree[from[k]]] = tip[k]
    if (rim !~ /^[0-9]+$/ || rim < 3 || n == 0) fail("rim is a number from 3 on, of a graph with vertices")
    on_rim[1] = cycle[1] = 1
    if (!find_cycle(1)) fail("no cycle of " rim " vertices through the first one")
    start_circle(rim)
    for (k = 1; k <= rim; k++) set_on_circle(cycle[k], k - 1, rim)
    for (v = 1; v <= n; v++) if (!(v in on_rim)) {
        across = down = 0
        for (k = 1; k <= degree[v]; k++) {
            u = out[v, k]
            if (u in on_rim) { across += x[u]; down += y[u] }
        }
        size = sqrt(across * across + down * down)
        if (size < 1) set(v, 0, 0)
        else set(v, across / size * radius * 0.52, down / size * radius * 0.52)
        spot = num(x[v]) " " num(y[v])
        if (spot in taken) fail("two vertices in one place: " name[v])
        taken[spot] = 1
    }
    join_on_circle()
}

# The way cycle[1..count] goes on until it is a cycle of so many vertices as the rim has.
function find_cycle(count,    k, u, v) {
    v = cycle[count]
    for (k = 1; k <= degree[v]; k++) {
        u = out[v, k]
        if (count == rim && u == cycle[1]) return 1
        if (count < rim && !(u in on_rim)) {
            cycle[count + 1] = u
            on_rim[u] = 1
            if (find_cycle(count + 1)) return 1
            delete on_rim[u]
        }
    }
    return 0
}

# ---------------------------------------------------------------------------------------------------------------------
# What is drawn.

# A line from u to v, or an arc that stands off by `bend` to the left of the way.
function edge(u, v, bend, is_wrapped, along,    dx, dy, size, px, py, ax, ay, bx, by, tx, ty) {
    dx = x[v] - x[u]
    dy = y[v] - y[u]
    size = sqrt(dx * dx + dy * dy)
    px = dy / size * bend * 4 / 3
    py = -dx / size * bend * 4 / 3
    ax = x[u] + dx * along + px
    ay = y[u] + dy * along + py
    bx = x[v] - dx * along + px
    by = y[v] - dy * along + py
    tx = x[v]
    ty = y[v]
    if (directed) {
        # the point of the arrow is at the rim of the vertex
        size = sqrt((tx - bx) * (tx - bx) + (ty - by) * (ty - by))
        tx -= (tx - bx) / size * (r + 2)
        ty -= (ty - by) / size * (r + 2)
    }
    marks(u, v, ax + (bx - ax) / 2 - px / 4, ay + (by - ay) / 2 - py / 4, px, py, size_of(dx, dy))
    if (bend) {
        see((ax + bx) / 2 - px / 4, (ay + by) / 2 - py / 4, 3)
        line("M" point(x[u], y[u]) " C" point(ax, ay) " " point(bx, by) " " point(tx, ty), is_wrapped)
    } else
        line("M" point(x[u], y[u]) " L" point(tx, ty), is_wrapped)
}

# A loop, in the direction of (across, down).
function loop(v, across, down, nth,    size, ax, ay, bx, by, dx, dy) {
    size = r + 16 + 7 * nth
    ax = x[v] + (across + 0.55 * down) * size * 1.3
    ay = y[v] + (down - 0.55 * across) * size * 1.3
    bx = x[v] + (across - 0.55 * down) * size * 1.3
    by = y[v] + (down + 0.55 * across) * size * 1.3
    see(x[v] + across * size, y[v] + down * size, 6)
    if (lengths) mark(x[v] + across * (size + 4), y[v] + down * (size + 4), len[drawing])
    if (order) {
        mark(x[v] + (across + 0.5 * down) * size * 0.8, y[v] + (down - 0.5 * across) * size * 0.8, rank[drawing])
        if (!directed) mark(x[v] + (across - 0.5 * down) * size * 0.8, y[v] + (down + 0.5 * across) * size * 0.8, rank[drawing] + 1)
    }
    if (directed) {
        # the point of the arrow is at the rim of the vertex, where the loop comes back
        dx = bx - x[v]
        dy = by - y[v]
        line("M" point(x[v], y[v]) " C" point(ax, ay) " " point(bx, by) " " \
            point(x[v] + dx / size_of(dx, dy) * (r + 2), y[v] + dy / size_of(dx, dy) * (r + 2)), 0)
    } else
        line("M" point(x[v], y[v]) " C" point(ax, ay) " " point(bx, by) " " point(x[v], y[v]), 0)
}

function line(way, is_wrapped) {
    edges = edges "<path class=\"" (is_wrapped ? "w" : "e") "\"" (colours ? " style=\"stroke: " colour(len[drawing]) "\"" : "") \
        " d=\"" way "\"/>\n"
}

# The colour of a length: lengths get theirs as they come.
function colour(length_) {
    if (!(length_ in colour_of)) {
        split("#33618f #c2541b #3f8f4f #8e44ad #b8860b #c0396b #2a9d9d #6b6b6b", palette, " ")
        colour_of[length_] = palette[colours_used++ % 8 + 1]
    }
    return colour_of[length_]
}

# The length in the middle of an edge, and at its ends the places of its arcs on their lists.
function marks(u, v, across, down, px, py, size,    k, back) {
    if (lengths) mark(across, down, len[drawing])
    if (!order) return
    at_end(u, v, px, py, size, rank[drawing])
    if (directed) return
    # the other record of the edge: the next that is as long and not met before
    for (k = 1; k <= m; k++)
        if (from[k] == v && tip[k] == u && len[k] == len[drawing] && !(k in met)) { back = k; break }
    met[back] = 1
    at_end(v, u, px, py, size, rank[back])
}

# A number beside the way from u to v, near u.
function at_end(u, v, px, py, size, text,    along) {
    along = (r + 9) / size
    if (along > 0.4) along = 0.4
    mark(x[u] + (x[v] - x[u]) * along + px * 3 * along * (1 - along), y[u] + (y[v] - y[u]) * along + py * 3 * along * (1 - along), text)
}

function mark(across, down, text) {
    labels = labels "<text class=\"n\" x=\"" num(across) "\" y=\"" num(down + 3) "\" text-anchor=\"middle\">" text "</text>\n"
    see(across, down, 7)
}

function size_of(dx, dy) { return sqrt(dx * dx + dy * dy) }

function dot(v, anchor, across, down,    width) {
    dots = dots "<circle cx=\"" num(x[v]) "\" cy=\"" num(y[v]) "\" r=\"" num(r) "\"><title>" escaped(name[v]) \
        "</title></circle>\n"
    if (anchor == "") return
    dots = dots "<text x=\"" num(across) "\" y=\"" num(down) "\" text-anchor=\"" anchor "\">" escaped(name[v]) "</text>\n"
    width = 6.2 * length(name[v])
    if (anchor == "start") see(across + width, down - 3, 8)
    else if (anchor == "end") see(across - width, down - 3, 8)
    else { see(across - width / 2, down - 3, 8); see(across + width / 2, down - 3, 8) }
}

# ---------------------------------------------------------------------------------------------------------------------
# The picture.

function write(    left, top, width, height) {
    left = low_x - 10
    top = low_y - 10
    width = high_x - low_x + 20
    height = high_y - low_y + 20
    print "<svg xmlns=\"http://www.w3.org/2000/svg\" viewBox=\"" num(left) " " num(top) " " num(width) " " num(height) \
        "\" width=\"" num(width) "\" height=\"" num(height) "\">"
    print "<title>" escaped(id) "</title>"
    print "<style>"
    print ".e { fill: none; stroke: #33618f; stroke-width: 1.3; stroke-opacity: 0.75 }"
    print ".w { fill: none; stroke: #c2541b; stroke-width: 1.3; stroke-opacity: 0.75 }"
    print "circle { fill: #ffffff; stroke: #22313f; stroke-width: 1.3 }"
    print "text { font: 10px Helvetica, Arial, sans-serif; fill: #22313f }"
    if (lengths || order)
        print ".n { font-size: 8px; fill: #8a2f12; stroke: #ffffff; stroke-width: 2.4; paint-order: stroke }"
    if (directed) print "path.e, path.w { marker-end: url(#arrow) }"
    print "</style>"
    if (directed)
        print "<marker id=\"arrow\" viewBox=\"0 0 8 8\" refX=\"7\" refY=\"4\" markerWidth=\"6\" markerHeight=\"6\" " \
            "orient=\"auto\"><path d=\"M0 0 L8 4 L0 8 Z\" fill=\"#33618f\"/></marker>"
    print "<rect x=\"" num(left) "\" y=\"" num(top) "\" width=\"" num(width) "\" height=\"" num(height) \
        "\" fill=\"#ffffff\"/>"
    printf "%s%s%s%s", ground, edges, dots, labels
    print "</svg>"
}

# The picture has room for this point, and for `round` about it.
function see(across, down, round) {
    if (across - round < low_x) low_x = across - round
    if (across + round > high_x) high_x = across + round
    if (down - round < low_y) low_y = down - round
    if (down + round > high_y) high_y = down + round
}

function point(across, down) { return num(across) " " num(down) }

function num(value,    text) {
    text = sprintf("%.1f", value)
    sub(/\.0$/, "", text)
    return text == "-0" ? "0" : text
}

function escaped(text) {
    gsub(/&/, "\\&amp;", text)
    gsub(/</, "\\&lt;", text)
    gsub(/>/, "\\&gt;", text)
    return text
}

function gcd(one, other) { return other ? gcd(other, one % other) : one }
