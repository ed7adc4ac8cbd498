# The first blocks of a generator's listing, as many as `blocks` says, with its head; it ends then:
#
#   sgb list "board(9,9,0,0,1,0,0)" | awk -v blocks=5 -f examples/parts/blocks.awk
#   sgb list "board(9,9,0,0,1,0,0)" --skip 20 | awk -v resumed=1 -v blocks=5 -f examples/parts/blocks.awk
#
# A block is whole where the vertex after it is seen. So it fails, with a line on standard error and status 1, where no
# vertex comes after the blocks, since the last of them may be cut off then. It fails where there is no head, unless
# resumed=1 says that the listing was resumed. What it has written by then is no more than a prefix of the blocks.
#
# The name of a generator's vertex begins with no space, the line of an arc with two.

BEGIN {
    if (!resumed)
        copy_head()
    left = blocks
    while ((is_read = (getline line)) > 0 && (line ~ /^ / || left-- > 0))
        print line
    if (is_read <= 0)
        fail("no vertex comes after " (blocks - left) " blocks, and " blocks " whole ones are wanted")
    # No exit here: after one, some kinds of awk end well although their output could not be written.
}

function copy_head(    head, k) {
    for (k = 1; k <= 4 && (getline line) > 0; k++)
        head = head line "\n"
    if (head !~ /^  The graph whose official name is\n[^\n]*\n  has [0-9]+ vertices and [0-9]+ arcs:\n\n$/)
        fail("no head of a listing: say -v resumed=1 where it was resumed")
    printf "%s", head
}

function fail(text) {
    print "blocks.awk: " text | "cat >&2"
    exit 1
}
