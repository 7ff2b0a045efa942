# Tests the prebuilt program; installs it, its scripts, their man pages and completions, the C library, the Python
# package, the page for browsers and the documents; and makes Debian packages of them, a wheel, and a package for npm.
# PREFIX, LIBDIR, PYTHONDIR, PYTHON and DESTDIR may hold spaces. CPU is v2 or v3, MACHINE x86_64 or aarch64, and neither
# is taken from the environment.
SHELL := /bin/sh
PREFIX ?= /usr/local
DESTDIR ?=
LIBDIR ?= $(PREFIX)/lib
PYTHONDIR ?=
PYTHON ?= /usr/bin/python3
CPU := v2
MACHINE := $(shell uname -m)
export PREFIX DESTDIR LIBDIR PYTHONDIR PYTHON MACHINE

folder := prebuilt/$(MACHINE)-linux-gnu
programs.v2 := $(folder)/dicomdir
programs.v3 := $(folder)/dicomdir-v3
program := $(or $(programs.$(CPU)),$(error CPU is v2 or v3))
library := $(folder)/libdicomdir.so.1
headers := dicomdir.h dicomdir_table.h
page := prebuilt/web/dicomdir.html
# They do the work of 'dicomdir index'. Each has a man page and completions by its name.
scripts := dicomdir-parallel dicomdir-slurm
version := $(shell packaging/version)
share := "$$DESTDIR$$PREFIX/share"
bin := "$$DESTDIR$$PREFIX/bin"
ours := $(share)/doc/dicomdir
lib := "$$DESTDIR$$LIBDIR"
include := "$$DESTDIR$$PREFIX/include"
# Sets python to the folder of the Python package.
find_python := python=$$(packaging/python-folder)/dicomdir
python := "$$DESTDIR$$python"
# A value as the second half of a command of sed.
quoted = $$(printf '%s' "$$$(1)" | sed 's/[&|\\]/\\&/g')

help:
	@echo 'dicomdir $(version), a program for Linux on x86-64 or aarch64 with glibc 2.34 or newer'
	@echo
	@echo '  make check      tests it in a few seconds, without network and root'
	@echo '  make install    copies it, its scripts, man pages, completions and documents, the C library, its headers,'
	@echo '                  the Python package and the page for browsers to PREFIX, /usr/local by default; where'
	@echo '                  DESTDIR is given, to that folder in place of /. LIBDIR is PREFIX/lib. PYTHONDIR is the'
	@echo '                  folder below PREFIX in which PYTHON looks for packages, /usr/bin/python3 by default.'
	@echo '                  With CPU=v3 the program is the faster one, for processors of x86-64-v3 alone'
	@echo '  make uninstall  removes these files again, from the same PREFIX, LIBDIR, PYTHONDIR, PYTHON and DESTDIR'
	@echo '  make deb        makes Debian packages of them, in packaging/out'
	@echo '  make wheel      makes a wheel of the Python package and the C library, in packaging/out'
	@echo '                  MACHINE=x86_64 or MACHINE=aarch64 is for another machine than this'
	@echo '  make npm        makes a package of the program under Node, and of the ES module, for npm, in packaging/out'
	@echo '  make page       makes the page for browsers of its sources in web, and of the program that it has'
	@echo '  make form       looks at the form of the sources, at wrong bodies and at pages, in seconds (CONTRIBUTING.md)'
	@echo "  make try        runs the program of today's sources, without proof, as make try ARGS='index OUT a.dcm'. The shell"
	@echo '                  reads ARGS, where make wants $$$$ for $$. Names are those of the folder in which make works. Its'
	@echo '                  input and output are those of make, which ends with status 2 where it has another than 0, and'
	@echo '                  says which. tools/dicomdir-try takes words as they are, in each folder, and has its status'
	@echo '  make quick      runs the tests of what is changed, without proof, and the commands of README.md'
	@echo '  make docs       makes what pages, man pages and completions have of the sources and the help'
	@echo
	@echo 'packaging/test tries what is installed. tools/dicomdir-build makes the program itself.'

# The bytes are those that were built.
install:
	@sed -n 's|^program \(.*\)|\1  $(program)|p' $(program).made-from | sha256sum --check --quiet -
	@sed -n 's|^library \(.*\)|\1  $(library)|p' $(library).made-from | sha256sum --check --quiet -
	@sed -n 's|^page \(.*\)|\1  $(page)|p' $(page).made-from | sha256sum --check --quiet -
	install -D -m 755 $(program) $(bin)/dicomdir
	install -m 755 $(scripts:%=scripts/%) $(bin)
	install -D -m 644 -t $(share)/dicomdir scripts/functions $(page)
	install -m 755 scripts/slurm-job $(share)/dicomdir/slurm-job
	install -D -m 644 docs/dicomdir.1 $(share)/man/man1/dicomdir.1
	install -m 644 $(scripts:%=docs/%.1) $(share)/man/man1
	install -D -m 644 packaging/completions/dicomdir.bash $(share)/bash-completion/completions/dicomdir
	for name in $(scripts); do ln -sf dicomdir $(share)/bash-completion/completions/$$name || exit 1; done
	install -D -m 644 packaging/completions/_dicomdir $(share)/zsh/site-functions/_dicomdir
	install -D -m 644 packaging/completions/dicomdir.fish $(share)/fish/vendor_completions.d/dicomdir.fish
	install -m 644 $(scripts:%=packaging/completions/%.fish) $(share)/fish/vendor_completions.d
	install -D -m 644 -t $(ours) README.md CHANGELOG.md
	install -m 644 $(program).made-from $(ours)/dicomdir.made-from
	install -d $(ours)/docs $(ours)/docs/images
	install -m 644 docs/*.md docs/json-schema.json $(ours)/docs
	install -m 644 docs/images/*.svg docs/images/*.png $(ours)/docs/images
	install -D -m 644 -t $(ours)/examples bindings/c/tree.c bindings/python/tree.py
	install -D -m 644 -t $(lib) $(library)
	ln -sf libdicomdir.so.1 $(lib)/libdicomdir.so
	install -D -m 644 -t $(include) $(headers:%=bindings/c/%)
	install -d $(lib)/pkgconfig
	sed "s|@PREFIX@|$(call quoted,PREFIX)|; s|@LIBDIR@|$(call quoted,LIBDIR)|; s|@VERSION@|$(version)|" \
		bindings/c/dicomdir.pc.in | install -m 644 /dev/stdin $(lib)/pkgconfig/dicomdir.pc
	$(find_python) && install -D -m 644 -t $(python) bindings/python/dicomdir/*.py bindings/python/dicomdir/py.typed && \
		ln -sf "$$(realpath -m -s "--relative-to=$$python" "$$LIBDIR/libdicomdir.so.1")" $(python)

# Folders that other programs may have too are left.
uninstall:
	for name in dicomdir $(scripts); do \
		rm -f $(bin)/$$name $(share)/man/man1/$$name.1 $(share)/bash-completion/completions/$$name \
			$(share)/fish/vendor_completions.d/$$name.fish || exit 1; done
	rm -f $(share)/zsh/site-functions/_dicomdir $(share)/dicomdir/functions $(share)/dicomdir/slurm-job \
		$(share)/dicomdir/dicomdir.html
	rm -f $(ours)/README.md $(ours)/CHANGELOG.md $(ours)/dicomdir.made-from $(ours)/docs/*.md
	rm -f $(ours)/docs/images/*.svg $(ours)/docs/images/*.png
	rm -f $(ours)/docs/json-schema.json
	rm -f $(ours)/examples/tree.c $(ours)/examples/tree.py
	rm -f $(lib)/libdicomdir.so.1 $(lib)/libdicomdir.so $(lib)/pkgconfig/dicomdir.pc
	for name in $(headers); do rm -f $(include)/$$name || exit 1; done
	$(find_python) && rm -rf $(python)/__pycache__ && \
		rm -f $(python)/*.py $(python)/py.typed $(python)/libdicomdir.so.1 && \
		if [ -d $(python) ]; then rmdir --ignore-fail-on-non-empty $(python); fi
	for folder in $(ours)/docs/images $(ours)/docs $(ours)/examples $(ours) $(share)/dicomdir; do \
		if [ -d "$$folder" ]; then rmdir --ignore-fail-on-non-empty "$$folder"; fi; done

check:
	@packaging/check

form:
	@tools/form

try:
	@tools/dicomdir-try $(ARGS)

quick:
	@packaging/quick $(CRATE)

deb:
	packaging/deb

wheel:
	@bindings/python/wheel packaging/out

npm:
	@packaging/npm

page:
	web/build-page

docs:
	docs/generate --write

.PHONY: help check form try quick install uninstall deb wheel npm page docs
