# The libraries for C and Python, the symbolizer for other tools, what is installed, and a release. `make` builds the
# libraries, `make install` puts all in place with the programs, and `make uninstall` takes it away. `make dist`
# packs what is built (docs/RELEASING.md).
PREFIX ?= /usr/local
LIBDIR ?= lib
DESTDIR ?=
KIT = $(shell dirname "$$(rt doc)")
VERSION := $(shell cat VERSION)
PROGRAM = crates/a2l/out/a2l
WHY = crates/a2l_why/out/a2l_why
SYMBOLIZER = rust/target/release/a2l-symbolizer
TRACE = rust/target/release/a2l-trace

# The files of the module for Python.
MODULE = __init__.py __main__.py py.typed liba2l.so

# All that is installed, below PREFIX, and the folders that hold nothing else.
INSTALLED = bin/a2l bin/a2l_why bin/a2l-symbolizer bin/llvm-symbolizer-a2l bin/a2l-trace $(LIBDIR)/liba2l.a \
    $(LIBDIR)/pkgconfig/a2l.pc include/a2l.h include/a2l_file.h share/man/man1/a2l.1 share/man/man1/a2l_why.1 \
    share/man/man1/a2l-symbolizer.1 share/man/man1/a2l-trace.1 share/man/man3/liba2l.3 $(MODULE:%=lib/a2l/python/a2l/%) \
    lib/a2l/tools/llvm-symbolizer lib/a2l/tools/addr2line
FOLDERS = lib/a2l/python/a2l lib/a2l/python lib/a2l/tools lib/a2l

.PHONY: all library shared program why symbolizer trace install install-files install-why \
    install-symbolizer install-trace uninstall dist tarball deb wheel

all: library shared

# One object of the proved library, the crates below it and the toolchain's calls of malloc, realloc and free. Its only
# global names are the functions of include/a2l.h.
library:
	cd crates/a2l_c && rt lib
	mkdir -p out
	ld -r -o out/a2l.o --whole-archive crates/a2l_c/out/liba2l_c.a "$(KIT)/c/liblibc_c.a"
	objcopy --wildcard --keep-global-symbol='a2l_*' out/a2l.o
	rm -f out/liba2l.a
	ar rcsD out/liba2l.a out/a2l.o

# The same object, to be loaded by a program that runs: python/a2l does.
shared: library
	$(CC) -shared -Wl,-z,defs -o out/liba2l.so -Wl,--whole-archive out/liba2l.a -Wl,--no-whole-archive

# `rt run` proves and builds a program, and runs it, which writes its usage line.
program:
	cd crates/a2l && rt run > /dev/null

why:
	cd crates/a2l_why && rt run > /dev/null

# The program that sanitizers, perf and others start, with the library in it.
symbolizer: library
	A2L_LIB_DIR="$(CURDIR)/out" rust/cargo.sh build --release --package a2l-symbolizer

# The program for crash logs, in the same way.
trace: library
	A2L_LIB_DIR="$(CURDIR)/out" rust/cargo.sh build --release --package a2l-trace

install: library shared program why symbolizer trace
	$(MAKE) install-files install-why install-symbolizer install-trace

# Puts a text in place, with the version and the folders that it names: $(call fill,FILE,PLACE).
fill = sed -e 's|@PREFIX@|$(PREFIX)|g' -e 's|@LIBDIR@|$(LIBDIR)|g' -e 's|@VERSION@|$(VERSION)|g' $(1) \
    > "$(DESTDIR)$(PREFIX)/$(2)" && chmod 644 "$(DESTDIR)$(PREFIX)/$(2)"

# The same of what is built already. The shared object is put into the module for Python and not into lib, where `-la2l`
# would prefer it, so that programs of C would need it when they run.
install-files:
	install -d "$(DESTDIR)$(PREFIX)/bin" "$(DESTDIR)$(PREFIX)/$(LIBDIR)/pkgconfig" "$(DESTDIR)$(PREFIX)/include" \
	    "$(DESTDIR)$(PREFIX)/lib/a2l/python/a2l" "$(DESTDIR)$(PREFIX)/share/man/man1" "$(DESTDIR)$(PREFIX)/share/man/man3"
	install -m 755 $(PROGRAM) "$(DESTDIR)$(PREFIX)/bin/a2l"
	install -m 644 out/liba2l.a "$(DESTDIR)$(PREFIX)/$(LIBDIR)/liba2l.a"
	install -m 755 out/liba2l.so "$(DESTDIR)$(PREFIX)/lib/a2l/python/a2l/liba2l.so"
	cd python/a2l && install -m 644 $(filter-out liba2l.so,$(MODULE)) "$(DESTDIR)$(PREFIX)/lib/a2l/python/a2l/"
	install -m 644 include/a2l.h include/a2l_file.h "$(DESTDIR)$(PREFIX)/include/"
	$(call fill,include/a2l.pc.in,$(LIBDIR)/pkgconfig/a2l.pc)
	$(call fill,docs/a2l.1,share/man/man1/a2l.1)
	$(call fill,docs/liba2l.3,share/man/man3/liba2l.3)

install-why:
	install -d "$(DESTDIR)$(PREFIX)/bin" "$(DESTDIR)$(PREFIX)/share/man/man1"
	install -m 755 $(WHY) "$(DESTDIR)$(PREFIX)/bin/a2l_why"
	$(call fill,docs/a2l_why.1,share/man/man1/a2l_why.1)

# The symbolizer under each name by which it is started: clang's runtimes accept only names that begin so, and the
# folder of the last two goes to the front of PATH.
install-symbolizer:
	install -d "$(DESTDIR)$(PREFIX)/bin" "$(DESTDIR)$(PREFIX)/lib/a2l/tools" "$(DESTDIR)$(PREFIX)/share/man/man1"
	install -m 755 $(SYMBOLIZER) "$(DESTDIR)$(PREFIX)/bin/a2l-symbolizer"
	$(call fill,docs/a2l-symbolizer.1,share/man/man1/a2l-symbolizer.1)
	ln -sf a2l-symbolizer "$(DESTDIR)$(PREFIX)/bin/llvm-symbolizer-a2l"
	ln -sf ../../../bin/a2l-symbolizer "$(DESTDIR)$(PREFIX)/lib/a2l/tools/llvm-symbolizer"
	ln -sf ../../../bin/a2l-symbolizer "$(DESTDIR)$(PREFIX)/lib/a2l/tools/addr2line"

install-trace:
	install -d "$(DESTDIR)$(PREFIX)/bin" "$(DESTDIR)$(PREFIX)/share/man/man1"
	install -m 755 $(TRACE) "$(DESTDIR)$(PREFIX)/bin/a2l-trace"
	$(call fill,docs/a2l-trace.1,share/man/man1/a2l-trace.1)

# Takes away what `make install` has put in place, with what Python has made of it, and the folders of a2l alone.
uninstall:
	cd "$(DESTDIR)$(PREFIX)" && rm -f $(INSTALLED) && rm -rf lib/a2l/python/a2l/__pycache__ && \
	    for folder in $(FOLDERS); do [ ! -d $$folder ] || rmdir $$folder; done

# A release of what is built, with the sums of all.
dist: tarball deb wheel
	cd out/release && sha256sum a2l-$(VERSION)-* *_$(VERSION)_*

tarball deb wheel:
	release/$@.sh > /dev/null
