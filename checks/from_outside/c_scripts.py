"""Checks of what examples/ has in C: the header that reads `.gb` files, and the program that makes graphs as GraphBase has them."""

import os
import re
import zlib

from .runs import TOP
from .script_shells import Shell

# a .gb file in which each field of vertices, arcs and the graph is a number of its own
TURNED = (
    "* GraphBase graph (util_types IIIIIIIIIIIIII,1V,3A)\n"
    '"x",1,2,11,12,13,14,15,16\n* Vertices\n"a",A1,1,2,3,4,5,6\n* Arcs\n'
    "V0,0,5,7,8\nV0,A0,6,9,10\n0,0,7,-1,-2\n* Checksum -1\n"
)

# A library for C whose graph has one vertex: its name says how long its input was, and the input's Adler-32.
COUNTING = r"""
#include <stdio.h>
#include <string.h>
#include "sgb.h"
static char name[64];
uint64_t sgb_open(const char *text, size_t text_len, const char *input, size_t input_len, sgb_graph *graph) {
    unsigned low = 1, high = 0;
    for (size_t k = 0; k < input_len; k++) low = (low + (unsigned char)input[k]) % 65521, high = (high + low) % 65521;
    snprintf(name, sizeof name, "%zu bytes, sum %u", input_len, high << 16 | low);
    graph->is_open = true;
    return text_len != strlen(text) || !input;
}
void sgb_close(sgb_graph *graph) { graph->is_open = false; }
uint64_t sgb_sizes(sgb_graph *graph, sgb_graph_sizes *sizes) {
    *sizes = (sgb_graph_sizes){1, 0};
    return !graph->is_open;
}
static bool is_all(uint32_t first, uint32_t count) { return first == 0 && count == 1; }
uint64_t sgb_arcs(sgb_graph *graph, uint64_t *arcs) { return *arcs = 0, !graph->is_open; }
uint64_t sgb_rows_size(sgb_graph *graph, uint32_t first, uint32_t count, uint64_t *arcs) {
    return *arcs = 0, !graph->is_open || !is_all(first, count);
}
uint64_t sgb_names_size(sgb_graph *graph, uint32_t first, uint32_t count, uint64_t *bytes) {
    return *bytes = strlen(name), !graph->is_open || !is_all(first, count);
}
uint64_t sgb_rows(sgb_graph *graph, uint32_t first, uint32_t count, uint64_t *starts, size_t n, uint32_t *tips, size_t m,
                  int64_t *lengths, size_t l) {
    starts[0] = starts[1] = 0;
    return !graph->is_open || !is_all(first, count) || n != 2 || m != l || !tips || !lengths;
}
uint64_t sgb_names(sgb_graph *graph, uint32_t first, uint32_t count, uint64_t *starts, size_t n, char *bytes, size_t len) {
    starts[0] = 0, starts[1] = len;
    memcpy(bytes, name, len);
    return !graph->is_open || !is_all(first, count) || n != 2;
}
uint64_t sgb_ints(sgb_graph *graph, uint32_t field, uint32_t first, uint32_t count, int64_t *values, size_t n) {
    return graph->is_open && field < 6 && is_all(first, count) && values && n == 1 ? SGB_NO_INTEGERS : 1;
}
uint64_t sgb_id(sgb_graph *graph, char *bytes, size_t len) { return !graph->is_open || !bytes || len; }
"""


def gb(program):
    def checks(runs, tally):
        """gb.h reads what sgb saves, and refuses what sgb refuses, with its codes."""
        shell = Shell(runs, program, "gb")
        status, _, err = shell.run("cc -O2 -Wall -Wextra -Werror -o gb_list examples/files/gb_list.c")
        tally.same("cc gb_list.c", (status, err), (0, ""))
        with open(os.path.join(TOP, "examples", "files", "gb.h"), encoding="utf-8") as file:
            tally.check(len(file.readlines()) < 150, "gb.h has too many lines")

        def compare(what):
            status, out, err = shell.run("sgb list stdin < file.gb")
            mine = shell.run("./gb_list < file.gb")
            code = re.search("panic code ([0-9]+)", err)
            wanted = (0, out, "") if status == 0 else (1, "", f"gb_list: code {code[1]}\n" if code else err)
            tally.same(what, mine, wanted)
            return status

        for expression in [
            "petersen()", "board(9,9,0,0,-1,3,0)", "lines(board(3,0,0,0,-1,1,0),0)", "bi_complete(2,3,0)",
            "simplex(5,2,2,0,0,0,0)", "product(lines(complete(5),0),lines(complete(5),0),0,0)", "empty(1)",
        ]:
            _, saved, _ = shell.run('sgb save "$EXPR"', EXPR=expression)
            shell.write("file.gb", saved)
            tally.check(compare(f"gb.h on the file of {expression}") == 0, expression, "was refused")
        # every kind of field, a line broken in a string and after a comma, spaces at ends, and a record on no list
        text = (
            "* by hand\n* GraphBase graph (util_types IVSAIVSAIVSAIV,2V,3A)  \n"
            '"all \\\nfields",2,9,"x",A2,\n-7,0\n* Vertices\n"a",A0,3,V1,"s",0,-9,0\n"b c",0,00,0,"",A1,9,V0  \n'
            '* Arcs\nV1,A1,-5,"t",0\nV0,0,9223372036854775807,"u",A2\n1,0,0,"",0\n* Checksum -1\nmore\n'
        )
        text = text.replace('"all', '"all').replace("util_types IVSAIVSAIVSAIV", "util_types IVSAIVSASAIVZZ")
        shell.write("file.gb", text)
        tally.check(compare("gb.h on a file of all fields") == 0, "a file of all fields was refused")
        # what it has read of all fields, also of a file whose letters are turned by one place
        built = shell.run(f"cc -O2 -Wall -Wextra -Werror -o gb_fields '{TOP}/checks/from_outside/gb_fields.c'")
        tally.same("cc gb_fields.c", built, (0, "", ""))
        for turned in (text, TURNED):
            shell.write("file.gb", turned)
            status, saved, err = shell.run("sgb save stdin < file.gb")
            fields = shell.run("./gb_fields 3 < file.gb")
            tally.same("gb_fields", fields, (status, saved[:saved.rindex("* Checksum")], err))
        short = shell.run('sgb save "circuit(3)"')[1]
        texts = [short[:size] for size in range(0, len(short), 3)] + [text[:size] for size in range(0, len(text), 3)]
        for whole, step in ((short, 2), (text, 2)):
            for at in range(0, len(whole), step):
                byte = "0AV1,\"\n \\-"[at // step % 10]
                texts.append(whole[:at] + byte + whole[at + 1:])
        # chains that do not end, on a list and on none; lists that lead to no vertex; lists that share records
        head = '* GraphBase graph (util_types ZZZZZZZZZZZZZZ,2V,3A)\n"x",2,3\n* Vertices\n"a",A0\n"b",A1\n* Arcs\n'
        for records in (
            "V1,A1,1\nV1,A2,1\nV0,A0,1\n", "V1,0,1\nV1,0,1\nV0,A2,1\n", "0,0,1\nV1,0,1\nV0,0,1\n",
            "V1,A2,1\nV1,A2,1\nV0,0,1\n", "V1,0,1\nV1,0,1\n1,0,1\n", "V1,0,1\nV1,A2,1\n1,0,1\n",
        ):
            texts += [head + records + "* Checksum -1\n", head + records + "* Checksum 5\n"]
        texts += [TURNED.replace('"x",1,', f'"x",{n},') for n in (0, 2, 3)]
        texts += [TURNED.replace('"x"', '"' + "x" * size + '"') for size in (160, 161)]
        texts += [TURNED.replace('"a"', '"' + "a" * size + '"') for size in (4095, 4096)]
        refused = 0
        for place, changed in enumerate(texts):
            shell.write("file.gb", changed)
            refused += compare(f"gb.h on changed file {place}, {changed!r}") != 0
        tally.check(200 < refused < len(texts), "so many changed files were refused:", refused, "of", len(texts))
        status, out, err = shell.run("./gb_list < .")
        tally.check((status, out, err) == (1, "", "gb_list: code -1\n"), "gb.h on a folder gave", (status, out, err))
        status, out, err = shell.run('sgb save "petersen()" | ./gb_list > /dev/full')
        tally.check(status != 0, "gb_list on a full device gave", status)

    return checks


def graphbase(program):
    def checks(runs, tally):
        """examples/c/graphbase.c reads an input of any size, whole; by the library for C where that is."""
        shell = Shell(runs, program, "great files in C")
        shell.write("counting.c", COUNTING)
        compiled = f"cc -O2 -Wall -Wextra -Werror -I '{TOP}/include' '{TOP}/examples/c/graphbase.c'"
        tally.same("cc graphbase.c", shell.run(f"{compiled} counting.c -o counting"), (0, "", ""))
        for size in (0, 1, 65_535, 65_536, 65_537, (1 << 22) - 1, 1 << 22, (1 << 22) + 1, 9_000_001):
            data = bytes(k * k % 251 for k in range(1009)) * (size // 1009 + 1)
            with open(shell.file("input"), "wb") as file:
                file.write(data[:size])
            head = "  The graph whose official name is\n\n  has 1 vertices and 0 arcs:\n\n"
            wanted = (0, f"{head}{size} bytes, sum {zlib.adler32(data[:size])}\n", "")
            tally.same(f"an input of {size} bytes", shell.run("./counting stdin < input"), wanted)
            tally.same(f"a pipe with {size} bytes", shell.run("cat input | ./counting stdin"), wanted)
        tally.same("no input", shell.run("./counting empty"), (0, f"{head}0 bytes, sum 1\n", ""))
        tally.same("a folder", shell.run("./counting stdin < ."), (2, "", "graphbase: the input could not be read\n"))
        if not os.path.exists(os.path.join(TOP, "libsgb.a")):
            print("  skipped, without libsgb.a: examples/c/graphbase.c on a file above 4 MiB")
            return
        tally.same("cc graphbase.c", shell.run(f"{compiled} '{TOP}/libsgb.a' -o graphbase"), (0, "", ""))
        status, saved, _ = shell.run('sgb save "board(300,300,0,0,1,0,0)"')
        tally.check(status == 0 and len(saved) > 1 << 22, "a board's file has", len(saved))
        shell.write("board.gb", saved)
        tally.same("a board's file", shell.run("./graphbase stdin < board.gb"), shell.run("sgb list stdin < board.gb"))

    return checks


def all_checks(program):
    yield "scripts in C", gb(program)
    yield "scripts in C on great files", graphbase(program)
