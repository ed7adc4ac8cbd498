# What runs on machines without the toolchain. The Makefile includes this.
#
# make dist       proves the programs and the library for C, and leaves in dist/ tarballs, Debian packages and wheels for x86-64
#                 and aarch64, and the book of definitions, with SHA256SUMS; each is tried. What a missing Debian package
#                 leaves out is said. What was in dist/ before is taken away: make dist wasm page makes all
# make windows    makes of the same proofs what runs on Windows, and tries it under wine: sgb-VERSION-x86_64-windows.zip and a
#                 wheel. No other target does so. What is in dist/ stays where make dist or make windows left it of the same
#                 commit
# make dist-try   tries what is in dist/ once more
# make book       writes the definitions that a reader has to believe as pages of HTML, dist/book, holds them against the
#                 sources and looks at them in Chromium: with no proof, in less than a minute. make dist packs them as
#                 dist/sgb-book-VERSION.tar.gz

dist: sgb FORCE
	@$(MAKE) --no-print-directory lib
	packaging/dist.py

windows: sgb FORCE
	@$(MAKE) --no-print-directory lib
	packaging/dist.py windows sums windows-try commands

dist-try:
	packaging/dist.py try commands

book:
	@packaging/book/book.py dist/book
	@checks/book.py dist/book
	@checks/book_seen.py dist/book
	@echo "dist/book/index.html is where to begin"

.PHONY: dist windows dist-try book
