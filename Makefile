# make quick      a first look: the programs and the library for C in out/quick, compiled from the sources, nothing proved, in
#                 some two minutes
# make            proves every crate, builds the programs, leaves them as ./sgb and ./sgb_levels
# make demo       that, and three small graphs
# make examples   tries the examples: forms of listings, by the readers installed, and back, Python, parts of a listing, the
#                 cookbook, and callers of the library for C and of GraphBase's own calls where make lib has left them, among
#                 them Dask's where it is installed
# make outside    checks the built program from outside: refused memory, failing devices, broken files, tour, examples
# make conformance  holds the program against a table of graphs and refusals
# make graphbase GRAPHBASE=FOLDER  holds it against the published library in FOLDER: gb_graph.h .. and libgb.a
# make gallery    makes the pictures of docs/GALLERY.md and compares them with those that are kept
# make calls      refuses memory to library calls: what stood before stands after, about a minute
# make library    calls of the libraries with values from outside, many of them as tables, about two minutes
# make test       what runs without a proof, on what make quick leaves, in some five minutes
# make check      the gate: all proofs from nothing, must-fail edits, the tests, the program
# make edits      tries the must-fail edits that the gate leaves out, on a copy
# make lib        proves the library for C, and leaves libsgb.a and libsgb.so, and libgb.a with GraphBase's own calls (lib.mk)
# make rows       what the arrays of graphs cost in C, beside a plain loop that fills them (lib.mk)
# make dist       proves all, and leaves in dist/ what runs on machines without the toolchain: tarballs, Debian packages and
#                 wheels for x86-64 and aarch64, each tried, and the book (dist.mk)
# make book       writes the definitions that a reader has to believe as pages of HTML, dist/book, from the sources alone (dist.mk)
# make windows    makes of the same what runs on Windows, and tries it under wine (dist.mk)
# make wasm       makes the package for Node and browsers of the proved library, and tests it: dist/sgb-VERSION.tgz (wasm.mk)
# make page       makes a page of that package, and tests it: dist/page, dist/sgb-page-VERSION.tar.gz (wasm.mk)
# make install    puts what is built below $(PREFIX), with its manual page and completion for bash, zsh and fish, and the
#                 library for C with the package for Python where it is there; it builds nothing
# make uninstall  takes them away again
# make clean      removes what was built, and with it what is kept of proofs

PREFIX ?= /usr/local

PROGRAM = crates/sgb_cli/out/sgb_cli

all: sgb

toolchain:
	@command -v rt > /dev/null || \
	  { echo "make: there is no command rt on the path: the Rattle toolchain is needed (README.md)" >&2; exit 1; }

quick: toolchain
	@checks/quick.py

sgb: toolchain FORCE
	@checks/prove.py sgb_cli sgb_levels
	@ln -sf $(PROGRAM) sgb
	@ln -sf crates/sgb_levels/out/sgb_levels sgb_levels
	@echo "Done: ./sgb, ./sgb_levels"

demo: sgb
	./sgb names "board(2,3,0,0,1,0,0)"
	./sgb list "petersen()"
	./sgb queen

examples: sgb
	python3 examples/tests/convert_test.py ./sgb
	python3 examples/tests/sgb_graph_test.py
	examples/tests/to_gb_test.py ./sgb
	examples/tests/edges_test.py ./sgb
	examples/tests/cookbook_test.py ./sgb
	examples/tests/course_test.py ./sgb
	examples/tests/shards_test.sh
	examples/tests/callers_test.py ./sgb ./sgb_levels
	examples/tests/operations_test.py
	examples/tests/dask_degrees_test.py ./sgb
	examples/tests/graphbase_test.py ./sgb ./sgb_levels

outside: sgb
	checks/outside.py ./sgb

conformance: sgb
	conformance/compare.py ./sgb

graphbase: sgb
	@test -n "$(GRAPHBASE)" || { echo "make graphbase GRAPHBASE=FOLDER, which has gb_graph.h and libgb.a" >&2; exit 2; }
	mkdir -p conformance/out
	$(CC) -std=gnu99 -O2 -Wall -Wextra -Werror -isystem $(GRAPHBASE) -o conformance/out/graphbase \
	  conformance/graphbase.c -L $(GRAPHBASE) -lgb
	conformance/graphbase.py ./sgb conformance/out/graphbase

gallery: sgb
	examples/listings/gallery.sh ./sgb

calls: toolchain
	checks/calls.py

library: toolchain
	checks/library.py

test: toolchain
	@checks/unproved.py

check: toolchain
	bash .ci/run

edits: toolchain
	checks/edits.py

install:
	@[ -x $(PROGRAM) ] || { echo "make: nothing is built yet: make builds the program, make install installs it" >&2; exit 1; }
	install -D $(PROGRAM) "$(DESTDIR)$(PREFIX)/bin/sgb"
	install -D -m 644 man/sgb.1 "$(DESTDIR)$(PREFIX)/share/man/man1/sgb.1"
	install -D -m 644 completions/sgb.bash "$(DESTDIR)$(PREFIX)/share/bash-completion/completions/sgb"
	install -D -m 644 completions/_sgb "$(DESTDIR)$(PREFIX)/share/zsh/site-functions/_sgb"
	install -D -m 644 completions/sgb.fish "$(DESTDIR)$(PREFIX)/share/fish/vendor_completions.d/sgb.fish"
	@[ ! -f libsgb.a ] || $(MAKE) --no-print-directory install-lib

uninstall:
	rm -f "$(DESTDIR)$(PREFIX)/bin/sgb" "$(DESTDIR)$(PREFIX)/share/man/man1/sgb.1"
	rm -f "$(DESTDIR)$(PREFIX)/share/bash-completion/completions/sgb"
	rm -f "$(DESTDIR)$(PREFIX)/share/zsh/site-functions/_sgb" "$(DESTDIR)$(PREFIX)/share/fish/vendor_completions.d/sgb.fish"

clean:
	rm -rf crates/*/out conformance/out out dist
	rm -f sgb sgb_levels

FORCE:

.PHONY: all toolchain quick demo examples outside conformance graphbase gallery calls library test check edits install uninstall \
  clean FORCE

include lib.mk
include dist.mk
include wasm.mk
