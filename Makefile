# What people type. Each command needs the toolchain's `rt` on the path (README.md).

SHELL := /bin/bash
PREFIX ?= /usr/local

# Crates are proved side by side, as far as crates.txt lets them. JOBS=N gives each so many processes; without it each
# takes a share of the processors (tools/prove).
MAKEFLAGS += --jobs=$(shell nproc)
export JOBS

# make knows how to link a file X of X.o, and removes it when it fails: a program that somebody names has such a file beside it.
MAKEFLAGS += --no-builtin-rules

CRATES := $(shell sed -n 's/^\([a-z0-9_]*\)\( staticlib\)\?:.*/\1/p' crates.txt)
TESTS := $(filter %_tests,$(CRATES))
LIBRARIES := $(filter-out rtfilter $(TESTS),$(CRATES))

# The program that is installed, or packed: another one than is built here, where it is named.
PROGRAM := build/rtfilter

# The proved archive that librtfilter is made of, and the folder that it is made in: others, where they are named.
ARCHIVE := crates/rtfilter_c/out/librtfilter_c.a
OUT := build

# It with the calls of include/rtfilter.h, and with malloc, realloc and free as the kit has them.
LIBRTFILTER := $(OUT)/librtfilter.a
HEAP = $(dir $(shell rt doc))c/liblibc_c.a
LIBDIR = $(PREFIX)/lib
PKG_CONFIG_FILE = sed 's|@PREFIX@|$(PREFIX)|; s|@LIBDIR@|$(LIBDIR)|; s|@VERSION@|'`cat VERSION`'|' library/rtfilter.pc.in

# The extension of the Python package, with the library in it. It wants python3-dev and python3-setuptools of Debian.
EXTENSION := python/rtfilter/_engine.abi3.so
BUILD_EXTENSION = cd python && RTFILTER_ARCHIVE=$(abspath $(LIBRTFILTER)) RTFILTER_INCLUDE=$(abspath include) \
  /usr/bin/python3 -B -W ignore setup.py --quiet build_ext --inplace --build-temp $(abspath $(OUT))/python/temporary --build-lib $(abspath $(OUT))/python/lib

# What a service and a pool load before the C library, where there is a C compiler.
PREFORK := $(if $(shell command -v $(CC)),build/rtfilter-prefork.so)

all: build/rtfilter $(PREFORK)

# The crates of this repository that a crate stands on, those that stand on it, and its files and folders. The first are found once, since
# a shell takes a while, and crates.txt names a crate before those that stand on it.
$(foreach it,$(CRATES),$(eval below_$(it) := $(filter $(CRATES),$(shell sed -n 's/^$(it)\( staticlib\)\?://p' crates.txt))))
$(foreach it,$(CRATES),$(eval all_below_$(it) := $(sort $(below_$(it)) $(foreach lower,$(below_$(it)),$(all_below_$(lower))))))
below = $(below_$(1))
all_below = $(all_below_$(1))
above = $(foreach crate,$(CRATES),$(if $(filter $(1),$(call all_below,$(crate))),$(crate)))
sources = crates.txt $(shell find crates/$(1)/src crates/$(1)/specs crates/$(1)/proofs 2> /dev/null)

# The proved program. No older one is left where a crate that it stands on is not proved.
build/rtfilter: $(foreach it,$(call below,rtfilter),build/$(it).proved) $(call sources,rtfilter)
	@tools/prove rtfilter run -- /dev/null
	@cp crates/rtfilter/out/rtfilter build/rtfilter

# librtfilter, for programs in C and other languages.
library: $(OUT)/librtfilter.so $(LIBRTFILTER)
	@$(PKG_CONFIG_FILE) > $(OUT)/rtfilter.pc

# (what was proved is proved again where a run of the gate has set it aside)
$(OUT)/librtfilter.a: $(if $(filter crates/%,$(ARCHIVE)),build/rtfilter_c.proved,$(ARCHIVE)) $(OUT)/rtfilter.o
	@[ -e $(ARCHIVE) ] || tools/prove rtfilter_c lib
	@ar p "$(HEAP)" heap.pic.o > $(OUT)/heap.pic.o
	@cp $(ARCHIVE) $@.new && chmod 644 $@.new && ar r $@.new $(OUT)/rtfilter.o $(OUT)/heap.pic.o && mv $@.new $@

$(OUT)/rtfilter.o: library/rtfilter.c library/engine.h include/rtfilter.h
	@mkdir -p $(OUT)
	@$(CC) -std=c11 -O -Wall -Wextra -Wpedantic -fPIC -Iinclude $(CPPFLAGS) $(CFLAGS) -c -o $@ $<

$(OUT)/librtfilter.so.0: $(LIBRTFILTER) library/rtfilter.map
	@mkdir -p $(OUT)
	@$(CC) -shared -Wl,-soname,librtfilter.so.0 -Wl,--version-script=library/rtfilter.map -Wl,--gc-sections,-z,defs,-z,now \
	  $(LDFLAGS) -o $@ -Wl,--whole-archive $(LIBRTFILTER) -Wl,--no-whole-archive $(LDLIBS)

$(OUT)/librtfilter.so: $(OUT)/librtfilter.so.0
	@ln -sf librtfilter.so.0 $@

# The Python package, to be used from this folder: PYTHONPATH=python.
python: $(EXTENSION)

$(EXTENSION): python/engine/_engine.c python/setup.py include/rtfilter.h $(LIBRTFILTER)
	@$(BUILD_EXTENSION)

# In one step, since some may build it at once.
build/rtfilter-prefork.so: service/prefork.c
	@mkdir -p build
	@$(CC) -std=gnu11 -O -Wall -Wextra -fPIC -shared -o $@.$$$$ $< && mv $@.$$$$ $@

define library
build/$(1).proved: $(foreach it,$(call below,$(1)),build/$(it).proved) $(call sources,$(1))
	@$(if $(filter $(1),$(call all_below,rtfilter)),rm -f build/rtfilter)
	@$(if $(filter $(1),rtfilter_c $(call all_below,rtfilter_c)),rm -f build/librtfilter.*)
	@tools/prove $(1) lib
	@touch build/$(1).proved
endef
$(foreach it,$(LIBRARIES),$(eval $(call library,$(it))))

define tests
build/$(1).passed: $(foreach it,$(call below,$(1)),build/$(it).proved) $(call sources,$(1))
	@tools/prove $(1) test
	@touch build/$(1).passed
endef
$(foreach it,$(TESTS),$(eval $(call tests,$(it))))

# The example of the README.
example: build/rtfilter
	@build/rtfilter examples/data/boxes.csv examples/data/queries.txt

# One library and its tests: make check CRATE=rt_geo.
check: build/$(CRATE).proved $(patsubst %,build/%.passed,$(filter $(CRATE)_tests,$(TESTS)))
	@echo "$(CRATE): proved and its tests passed. Not checked, and stands on it: $(filter-out $(TESTS),$(call above,$(CRATE)))"

# Every proof from nothing, the edits that must be refused, the tests, the program's runs, and that the pages
# show proved code.
test:
	@tests/run

# The Python package, the service, the examples, the recipes and the packages, with the built program. NEED=all: what can't be tried here has failed.
test-users: all library
	@tests/pytests.py build/rtfilter --archive $(ARCHIVE) $(if $(filter all,$(NEED)),--need-all)

# The Debian packages that the tests want, by apt-get, as root or with sudo.
test-packages:
	@tests/packages

# The greatest table that is allowed: some 1 GB of memory, and half a minute. No part of test.
test-full: build/rtfilter
	@tests/sizes.py build/rtfilter --full

# What loads and lines cost, beside other indexes, in some minutes: tables, and pictures in build/bench.
bench: all library
	@bench/bench.py build/rtfilter --library $(LIBRTFILTER)

# The Debian packages, in build/: the program with the pages, the library, the Python package, the service, the tools. They want debhelper, dh-python,
# dpkg-dev, gcc, python3-dev and python3-setuptools.
deb: $(PROGRAM) $(LIBRTFILTER)
	@packaging/make_packages.py $(PROGRAM) $(LIBRTFILTER) build

# The Python wheel, with the program in it, in build/. It wants a C compiler, python3-dev and python3-setuptools of Debian.
wheel: $(PROGRAM) build/rtfilter-prefork.so $(LIBRTFILTER)
	@packaging/make_wheel.py $(PROGRAM) build/rtfilter-prefork.so $(LIBRTFILTER) build

# The reference of the Python package, in build/reference. It wants python3-sphinx of Debian.
reference:
	@PYTHONPATH=python /usr/bin/python3 -B -m sphinx -q -W docs/reference build/reference

SHARE := $(DESTDIR)$(PREFIX)/share
SERVING := $(DESTDIR)$(PREFIX)/lib/rtfilter
UNITS := $(DESTDIR)$(PREFIX)/lib/systemd/system
SERVICE := $(addprefix service/,serve.py service.py listening.py health.py prefork.py)
COMPLETIONS := $(SHARE)/bash-completion/completions

# What makes the units of many tables of those of one: an instance has the name of its table.
INSTANCE := s|rtfilter\.socket|rtfilter@%i.socket|; s|/boxes\.csv|/%i.csv|; s|/run/rtfilter/socket|/run/rtfilter/%i.socket|; \
  s|/rtfilter-service$$|&-%i|; s|^Description=.*|& of %i|

# The library where it is built: make library install.
INSTALLED_LIBRARY := $(if $(or $(filter library,$(MAKECMDGOALS)),$(wildcard $(OUT)/librtfilter.so.0)),library)

# The service too, where there is a C compiler.
install: $(PROGRAM) $(PREFORK) $(INSTALLED_LIBRARY)
	install -D $(PROGRAM) "$(DESTDIR)$(PREFIX)/bin/rtfilter"
	install -D -m 644 docs/rtfilter.1 "$(SHARE)/man/man1/rtfilter.1"
	install -D -m 644 packaging/completion.bash "$(COMPLETIONS)/rtfilter"
ifdef PREFORK
	install -d "$(SERVING)" "$(UNITS)"
	install -m 644 $(PREFORK) $(SERVICE) "$(SERVING)"
	install -D -m 644 docs/rtfilter-serve.1 "$(SHARE)/man/man1/rtfilter-serve.1"
	install -D -m 644 packaging/completion.bash "$(COMPLETIONS)/rtfilter-serve"
	chmod 755 "$(SERVING)/serve.py"
	ln -sf ../lib/rtfilter/serve.py "$(DESTDIR)$(PREFIX)/bin/rtfilter-serve"
	for kind in service socket; do \
	  sed 's|/usr/local|$(PREFIX)|g' service/rtfilter.$$kind > "$(UNITS)/rtfilter.$$kind"; \
	  sed '$(INSTANCE)' "$(UNITS)/rtfilter.$$kind" > "$(UNITS)/rtfilter@.$$kind"; done
endif
	$(if $(INSTALLED_LIBRARY),$(MAKE) --no-print-directory install-library)

# The library alone.
install-library: library
	install -d "$(DESTDIR)$(LIBDIR)/pkgconfig" "$(DESTDIR)$(PREFIX)/include"
	install -m 644 include/rtfilter.h include/rtfilter.hpp "$(DESTDIR)$(PREFIX)/include"
	install -m 644 $(OUT)/librtfilter.so.0 $(LIBRTFILTER) "$(DESTDIR)$(LIBDIR)"
	ln -sf librtfilter.so.0 "$(DESTDIR)$(LIBDIR)/librtfilter.so"
	$(PKG_CONFIG_FILE) > "$(DESTDIR)$(LIBDIR)/pkgconfig/rtfilter.pc"
	@[ -n "$(DESTDIR)" ] || [ "$$(id -u)" != 0 ] || [ ! -x /sbin/ldconfig ] || /sbin/ldconfig

uninstall:
	rm -f "$(DESTDIR)$(PREFIX)/bin/rtfilter" "$(COMPLETIONS)/rtfilter" "$(COMPLETIONS)/rtfilter-serve"
	rm -f "$(SHARE)/man/man1/rtfilter.1" "$(SHARE)/man/man1/rtfilter-serve.1"
	rm -f "$(DESTDIR)$(PREFIX)/bin/rtfilter-serve" $(foreach it,.service .socket @.service @.socket,"$(UNITS)/rtfilter$(it)")
	rm -rf "$(SERVING)"
	rm -f $(foreach it,.so .so.0 .a,"$(DESTDIR)$(LIBDIR)/librtfilter$(it)") "$(DESTDIR)$(LIBDIR)/pkgconfig/rtfilter.pc"
	rm -f $(foreach it,h hpp,"$(DESTDIR)$(PREFIX)/include/rtfilter.$(it)")

clean:
	rm -rf build crates/*/out

.PHONY: all library python example check test test-users test-packages test-full bench deb wheel reference install install-library
.PHONY: uninstall clean
.DEFAULT_GOAL := all
