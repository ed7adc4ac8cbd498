# Says why a part of an expression is refused, for explain.sh: `form` is its form, `code` the code that it is refused with, and
# `vertices` how many vertices the first graph has that it is made of. Numbers are exact up to 2^53.

BEGIN { code += 0; MOST = 1000000000; DIMENSIONS = 250 }

{
    text = $0
    inside = text
    sub(/^[a-z_]*\(/, "", inside)
    sub(/\)$/, "", inside)
    count = split(inside, number, ",")
    if (form == "complete" || form == "transitive" || form == "empty" || form == "circuit" || form == "cycle")
        board(number[1] + 0, 0, 0, 0, 1)
    else if (form == "board")
        board(number[1] + 0, number[2] + 0, number[3] + 0, number[4] + 0, number[5])
    else if (form == "simplex" || form == "subsets")
        sums(number[1] + 0, number[2] + 0, number[3] + 0, number[4] + 0, number[5] + 0, number[6] + 0)
    else if (form == "disjoint_subsets")
        sums(number[2] + 0, 1, 1 - number[1], 0, 0, 0)
    else if (form == "induced")
        induced()
    else if (form == "bi_complete" || form == "wheel")
        say(code == 30 ? "a number of vertices is negative" : "more than " MOST " vertices")
    else if (form == "product")
        say("more than " MOST " pairs: the first graph has " vertices + 0 " vertices")
    else if (form == "lines")
        say(code == 60 ? "the graph has an arc that is no edge: of arcs lines(..,1) is made" : "more than " MOST " lines")
}

function say(why) { print text ": " why }

# the entries before the first that is not positive, repeated where that is negative: n of them, in entry[1], entry[2], ..
function entries(a, b, c, d, e, more,    given, i, k, stop) {
    given[1] = a; given[2] = b; given[3] = c; given[4] = d; given[5] = e
    for (i = 1; i <= 5 && given[i] > 0; i++) entry[i] = given[i]
    stop = i <= 5 ? given[i] : 0
    n = stop < 0 ? more - stop : i - 1
    for (k = i; k <= n && k <= DIMENSIONS + 1; k++) entry[k] = entry[(k - 1) % (i - 1) + 1]
    return n - more
}

function board(n1, n2, n3, n4, piece,    i, product, factors) {
    if (n1 <= 0) { n1 = n2 = 8; n3 = n4 = 0 }
    if (entries(n1, n2, n3, n4, 0, 0) > DIMENSIONS)
        return say(n " dimensions; there may be " DIMENSIONS)
    product = 1
    for (i = 1; i <= n; i++) {
        product *= entry[i]
        factors = factors (i > 1 ? " * " : "") entry[i]
        if (i > 6 && n > 8) { factors = factors " * .."; while (++i <= n) product *= entry[i] }
    }
    if (product > MOST)
        return say((product < 2 ^ 53 ? sprintf("%.0f", product) : "far too many") " vertices" \
            (n > 1 ? ", " factors : "") "; there may be " MOST)
    if (piece + 0 < -2147483647 || piece + 0 > 2147483647)
        say("the piece is " piece "; it is at most 2147483647 in size")
}

function sums(sum, n0, n1, n2, n3, n4,    d, i, j, k, row, less, most) {
    if (sum < 0)
        return say("the sum is " sprintf("%.0f", sum) ", below 0")
    if (n0 == 0) n0 = -2
    if (n0 < 0) {
        d = -n0
        for (i = 1; i <= d + 1 && i <= DIMENSIONS + 1; i++) entry[i] = sum
    } else
        d = entries(n0, n1, n2, n3, n4, 1)
    if (d > DIMENSIONS)
        return say(d " dimensions; there may be " DIMENSIONS)
    if (sum > MOST)
        return say("the sum is " sprintf("%.0f", sum) "; it is at most " MOST)
    if (sum > 100000)
        return say("more than " MOST " vectors of some of the first entries have one sum, " sum " or less")
    # row[k]: how many vectors of the first entries have the sum k
    for (k = 0; k <= sum; k++) row[k] = k <= entry[1]
    for (j = 2; j <= d + 1; j++) {
        for (k = 1; k <= sum; k++) row[k] += row[k - 1]
        for (k = sum; k > entry[j]; k--) row[k] -= row[k - entry[j] - 1]
        for (k = 0; k <= sum; k++)
            if (row[k] > MOST)
                return say(sprintf("%.0f vectors of %d entries have the sum %d; there may be %d", row[k], j, k, MOST))
    }
}

function induced(    list, i, letter, depth, listed) {
    list = substr(inside, index(inside, ",[") + 2)
    for (i = 1; i <= length(list); i++) {
        letter = substr(list, i, 1)
        if (letter == "]" && !depth) break
        depth += (letter == "(" || letter == "[") - (letter == ")" || letter == "]")
        if (letter == "," && !depth) listed++
    }
    listed += i > 1
    if (code == 30)
        say("the graph has " vertices + 0 " vertices, and there are " listed + 0 " entries: one for each vertex is wanted")
    else
        say("an entry is above " MOST ", or there would be more vertices than that in all")
}
