# The package for Node and browsers. The Makefile includes this.
#
# make wasm       proves the library for C, and makes dist/sgb-VERSION.tgz of it: sgb.wasm and a module that calls it.
#                 It says which Debian packages are missing, and fails where the package does not pass its tests
#                 (web/build.py)
# make page       makes a page of that package, dist/page, for any web server, tries it in Chromium (page/test.py), and
#                 packs it as dist/sgb-page-VERSION.tar.gz
#
# Both write SHA256SUMS of all that is in dist/, and give the commands of docs/INSTALL.md that can be given. A version is
# of one commit: make dist wasm page, in this order, since make dist takes away what is there.

wasm: toolchain FORCE
	@web/build.py
	@packaging/dist.py sums commands

# of what make wasm left
page:
	@[ -f out/web/package/sgb.wasm ] || { echo "make: there is no package: make wasm makes it" >&2; exit 1; }
	rm -rf dist/page && mkdir -p dist/page
	cp page/index.html page/page.css page/*.js out/web/package/sgb.js out/web/package/sgb.wasm dist/page
	page/test.py dist/page
	@packaging/dist.py page sums commands
	@echo "dist/page is for any web server: python3 -m http.server -d dist/page"

clean-wasm:
	rm -rf out/web dist/sgb-*.tgz dist/sgb-page-*.tar.gz dist/page

clean: clean-wasm

.PHONY: wasm page clean-wasm
