# The library for C: libsgb.a, libsgb.so, GraphBase's own calls over them, and how they are installed. The Makefile includes
# this.
#
# make lib        proves the library for C, and leaves libsgb.a and libsgb.so beside include/sgb.h, and libgb.a
# make archives   makes these of what `rt lib` left in crates/sgb_c/out, without a proof
# make libgb.a    compiles graphbase/: the calls of include/graphbase, in C over sgb.h; nothing of it is proved
# make install-lib, make uninstall-lib   put them below $(LIBDIR), the headers below $(INCLUDEDIR), sgb.pc and gb.pc, and the
#                 package for Python below $(PYTHONDIR), and take them away again; nothing is built. make install does so too
#                 where the library is there.
# make rows       what the arrays of boards and other graphs cost, beside a plain loop that fills them (bench/rows.c)

VERSION := $(shell cat VERSION)

LIBDIR ?= $(PREFIX)/lib
INCLUDEDIR ?= $(PREFIX)/include
PYTHONDIR ?= $(LIBDIR)/python3/dist-packages

# the name that a program keeps of the shared library: another one where a program of the first numbers runs no more
SONAME = libsgb.so.$(firstword $(subst ., ,$(VERSION)))

# the kit's object with malloc, realloc and free
KIT_HEAP = $(dir $(shell rt doc))c/liblibc_c.a

lib: toolchain FORCE
	@checks/prove.py sgb_c
	cd crates/sgb_c && rt lib > /dev/null
	@$(MAKE) --no-print-directory archives

# the two archives of what `rt lib` left: one file is enough, and both show the calls of sgb.h alone
archives: toolchain FORCE
	rm -rf out_lib && mkdir out_lib
	cd out_lib && ar x $(KIT_HEAP) && ar x ../crates/sgb_c/out/libsgb_c.a
	cd out_lib && ld -r -o sgb.whole *.o && objcopy --wildcard --keep-global-symbol='sgb_*' sgb.whole sgb.o
	ar rcs out_lib/libsgb.a out_lib/sgb.o
	printf '{ global: sgb_*; local: *; };\n' > out_lib/sgb.map
	cc -shared -o out_lib/$(SONAME) -Wl,-soname,$(SONAME) -Wl,--version-script=out_lib/sgb.map out_lib/sgb.o
	mv out_lib/libsgb.a out_lib/$(SONAME) .
	ln -sf $(SONAME) libsgb.so
	rm -rf out_lib
	@$(MAKE) --no-print-directory libgb.a
	@echo "Done: libsgb.a, libsgb.so, include/sgb.h; libgb.a, include/graphbase"

GB_HEADERS = $(sort $(wildcard include/graphbase/*.h))

# what programs of GraphBase link with, in front of libsgb
libgb.a: $(wildcard graphbase/*.[ch]) $(GB_HEADERS) include/sgb.h
	rm -rf out_gb && mkdir out_gb
	cd out_gb && $(CC) -std=c99 -O2 -fPIC -Wall -Wextra -pedantic -I../include/graphbase -I../include -c ../graphbase/*.c
	rm -f libgb.a && ar rcs libgb.a out_gb/*.o
	rm -rf out_gb

PYTHON_FILES = $(sort $(wildcard python/sgb/*.py)) python/sgb/py.typed

comma = ,
# a file of pkg-config: its name, what it is, and the two lines of flags
pc = printf '%s\n' 'prefix=$(PREFIX)' 'libdir=$(subst $(PREFIX)/,$${prefix}/,$(LIBDIR))' \
  'includedir=$(subst $(PREFIX)/,$${prefix}/,$(INCLUDEDIR))' '' 'Name: $(1)' 'Description: $(2)' 'Version: $(VERSION)' \
  'Libs: -L"$${libdir}" $(3)' 'Cflags: -I"$${includedir}$(4)"' > "$(DESTDIR)$(LIBDIR)/pkgconfig/$(1).pc"

install-lib:
	@[ -f libsgb.a ] && [ -f $(SONAME) ] && [ -f libgb.a ] || \
	  { echo "make: libsgb.a, $(SONAME) and libgb.a are not there: make lib makes them" >&2; exit 1; }
	install -D -m 644 include/sgb.h "$(DESTDIR)$(INCLUDEDIR)/sgb.h"
	install -D -m 644 include/sgb.hpp "$(DESTDIR)$(INCLUDEDIR)/sgb.hpp"
	install -D -m 644 libsgb.a "$(DESTDIR)$(LIBDIR)/libsgb.a"
	install -D -m 755 $(SONAME) "$(DESTDIR)$(LIBDIR)/$(SONAME)"
	ln -sf $(SONAME) "$(DESTDIR)$(LIBDIR)/libsgb.so"
	mkdir -p "$(DESTDIR)$(LIBDIR)/pkgconfig"
	$(call pc,sgb,Graphs of the Stanford GraphBase as arrays$(comma) proved,-lsgb,)
	for header in $(GB_HEADERS); do \
	  install -D -m 644 $$header "$(DESTDIR)$(INCLUDEDIR)/graphbase/$${header##*/}" || exit 1; \
	done
	install -D -m 644 libgb.a "$(DESTDIR)$(LIBDIR)/libgb.a"
	$(call pc,gb,Calls of the Stanford GraphBase over sgb,-lgb -lsgb,/graphbase)
	mkdir -p "$(DESTDIR)$(PYTHONDIR)/sgb"
	install -m 644 $(PYTHON_FILES) "$(DESTDIR)$(PYTHONDIR)/sgb"
	ln -sfr "$(DESTDIR)$(LIBDIR)/$(SONAME)" "$(DESTDIR)$(PYTHONDIR)/sgb/libsgb.so"

uninstall-lib:
	rm -f "$(DESTDIR)$(INCLUDEDIR)/sgb.h" "$(DESTDIR)$(INCLUDEDIR)/sgb.hpp"
	rm -f "$(DESTDIR)$(LIBDIR)/libsgb.a" "$(DESTDIR)$(LIBDIR)/libsgb.so" "$(DESTDIR)$(LIBDIR)/$(SONAME)"
	rm -f "$(DESTDIR)$(LIBDIR)/libgb.a" "$(DESTDIR)$(LIBDIR)/pkgconfig/sgb.pc" "$(DESTDIR)$(LIBDIR)/pkgconfig/gb.pc"
	for header in $(GB_HEADERS); do rm -f "$(DESTDIR)$(INCLUDEDIR)/graphbase/$${header##*/}"; done
	[ ! -d "$(DESTDIR)$(INCLUDEDIR)/graphbase" ] || rmdir --ignore-fail-on-non-empty "$(DESTDIR)$(INCLUDEDIR)/graphbase"
	for file in $(notdir $(PYTHON_FILES)) libsgb.so; do rm -f "$(DESTDIR)$(PYTHONDIR)/sgb/$$file"; done
	rm -rf "$(DESTDIR)$(PYTHONDIR)/sgb/__pycache__"
	[ ! -d "$(DESTDIR)$(PYTHONDIR)/sgb" ] || rmdir --ignore-fail-on-non-empty "$(DESTDIR)$(PYTHONDIR)/sgb"

# with BOARDS="EXPR .." those graphs alone
rows: FORCE
	@[ -f libsgb.a ] || { echo "make: libsgb.a is not there: make lib makes it" >&2; exit 1; }
	mkdir -p out
	cc -O2 -Iinclude bench/rows.c libsgb.a -lm -o out/rows
	out/rows $(foreach board,$(BOARDS),'$(board)')

clean-lib:
	rm -rf libsgb.a libsgb.so libsgb.so.* libgb.a out_lib out_gb

# what takes the program away takes the library away; make install puts both there
uninstall: uninstall-lib
clean: clean-lib

.PHONY: lib archives install-lib uninstall-lib rows clean-lib
