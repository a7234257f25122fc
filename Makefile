# make           print this list
# make try       build out/unproved/scmgc without proofs, in a minute or two, and play SCRIPT=FILE or an example
# make run       prove and build the program, and play the example script: half an hour on four cores
# make build     prove and build the program alone: crates/scmgc/out/scmgc
# make check     before a commit: compare events, header and sizes, prove what has changed and all above it, play the cases
# make bindings  write the header, its manual page and the bindings for Rust, after a change of a call, error or limit
# make lists     write the events of CALLING.md, scmgc.1 and the help of play, after a change of SCRIPTS.md
# make test      the gate: proofs from nothing, all tests, wrong bodies: half an hour to an hour on four cores
# make walks     random scripts and edited lines by the proved program, compared with an engine and a reader in Python
# make kernel-walks  as root: SEEDS (28) random scripts by real sockets of this Linux, compared with the plain engine
# make stress    each request for memory refused in turn, and the largest worlds, by the proved program and tests
# make bench     nanoseconds for each event by the proved program, over named workloads, and calls a second from threads
# make try-lib   build out/unproved/libjaywardrobe.a, for C and Rust, without proofs, in a minute or two
# make lib       prove and build the library for C and Rust: out/libjaywardrobe.a, half an hour on four cores
# make archive   put that library together once more, over what make lib proved
# make embed     make lib, then compare its header with it, and run the programs in C and Rust that use it
# make bench-c   nanoseconds for each call from C, over two of the workloads, by the library proved or not
# make unixbox   build the supervisor that runs programs on the library, proved or not: out/unixbox
# make clients   run test suites of others natively and under unixbox: half an hour; as root it installs their packages
# make install   put the program and the library, as far as they are proved and built, below PREFIX (/usr/local)
# make uninstall remove them from there
# make clean     remove all that was built, and the work that checks keep

PROGRAM := crates/scmgc/out/scmgc
STATIC := crates/scm_c/out/libscm_c.a
LIBRARY := out/libjaywardrobe.a
# What is built without proofs: the program, and the library.
TRIED := out/unproved/scmgc
UNPROVED := out/unproved/libjaywardrobe.a
# The kit's folder: it has the few heap functions over malloc that the library stands on.
KIT = $(dir $(firstword $(shell rt doc 2> /dev/null)))
SCRIPT ?= examples/cycle.script
SEEDS ?= 28
PREFIX ?= /usr/local
BINDIR ?= $(PREFIX)/bin
LIBDIR ?= $(PREFIX)/lib
INCLUDEDIR ?= $(PREFIX)/include
MANDIR ?= $(PREFIX)/share/man

# Stops with a line that says where to get it, where one of these programs is missing.
need = tools/need python3
# The proved library where it is built, and else the one to try.
at_hand = $(shell for it in $(LIBRARY) $(UNPROVED); do test -f $$it && echo $$it && break; done)
# Runs a command in a crate's folder, and says on standard error how far the build is and about how long the rest takes.
in_crate = cd crates/$(1) && ../../tools/gate-times --crate $(1)

help:
	@sed -n 's/^# \(make\)/\1/p; /^$$/q' $(firstword $(MAKEFILE_LIST))

try: $(TRIED)
	$(TRIED) play $(SCRIPT)

$(TRIED) $(UNPROVED): out/unproved/%: tools/try-build $(shell find crates/*/src -name "*.rt")
	@$(need) rt
	tools/try-build $*

# An empty script does nothing; asking for its run proves, builds and links the program.
build:
	@$(need) rt
	$(call in_crate,scmgc) rt run -- run < /dev/null

run: build
	$(PROGRAM) run < examples/cycle.script

check:
	@$(need) rt
	tests/events_agree.py
	tests/calls_agree.py
	tests/sizes.py
	tools/bindings --check
	rt all check
	$(MAKE) --no-print-directory build
	tests/cases.py

bindings:
	@$(need)
	tools/bindings

lists:
	@$(need)
	tools/lists

# Where the time went, crate by crate, stands in out/times.md after it.
test:
	@$(need) rt
	tools/gate-times --table out/times.md tools/gate

walks: build
	tools/walks
	tools/plays

kernel-walks:
	@$(need)
	tests/comparison/kernel_walks.py --seeds $(SEEDS)

# The tests stay in the folders out/ of their crates.
stress: build
	@$(need) cc
	cd crates/af_tests && rt test
	tools/stress

bench: build
	tools/bench

try-lib: $(UNPROVED)
	@echo '$(UNPROVED) is NOT proved: make lib proves and builds $(LIBRARY)'

lib:
	@$(need) rt $(firstword $(AR))
	$(call in_crate,scm_c) sh -c "rt check --only '' && ../../tools/embed --build"
	@$(MAKE) --no-print-directory archive

# The library and the few heap functions that it stands on, as one archive.
archive:
	@$(need) rt $(firstword $(AR))
	@test -f $(STATIC) || { echo 'make archive: $(STATIC) is not built: run make lib' >&2; exit 2; }
	mkdir -p out
	printf '%s\n' 'create $(LIBRARY).new' 'addlib $(STATIC)' 'addlib $(KIT)c/liblibc_c.a' save end | $(AR) -M
	mv $(LIBRARY).new $(LIBRARY)

embed: lib
	tests/embedding.sh $(LIBRARY)

clients: unixbox
	@$(need) python3
	tools/clients

# Stops where no library is built.
need_library = test -n '$(at_hand)' || \
	{ echo 'make $@: no library is built: run make lib, or make try-lib for an unproved one' >&2; exit 2; }

bench-c:
	@$(need) $(firstword $(CC))
	@$(need_library)
	$(CC) -O2 -Iinclude examples/c/bench.c $(at_hand) -pthread -o out/bench_c
	@echo 'out/bench_c is built over $(at_hand)'
	out/bench_c

unixbox:
	@$(need) $(firstword $(CC))
	@$(need_library)
	$(CC) -std=c11 -O2 -Iinclude unixbox/*.c $(at_hand) -o out/unixbox -lpthread
	@echo 'out/unixbox is built over $(at_hand)'

# It proves and builds nothing, so that root may run it.
install:
	@test -f $(PROGRAM) || test -f $(LIBRARY) || \
		{ echo 'make install: nothing is proved and built: run make build, make lib, or name what make try built:' >&2; \
		echo 'make install PROGRAM=$(TRIED) LIBRARY=$(UNPROVED)' >&2; exit 2; }
	@if test -f $(PROGRAM); then $(MAKE) --no-print-directory install-program; \
		else echo 'make install: there is no program to install: make build builds it'; fi
	@if test -f $(LIBRARY); then $(MAKE) --no-print-directory install-library; \
		else echo 'make install: there is no library to install: make lib builds it'; fi

install-program:
	install -D $(PROGRAM) $(DESTDIR)$(BINDIR)/scmgc
	install -D -m 644 docs/man/scmgc.1 $(DESTDIR)$(MANDIR)/man1/scmgc.1

install-library:
	install -D -m 644 $(LIBRARY) $(DESTDIR)$(LIBDIR)/libjaywardrobe.a
	install -D -m 644 -t $(DESTDIR)$(INCLUDEDIR) include/*.h
	install -D -m 644 docs/man/jaywardrobe.3 $(DESTDIR)$(MANDIR)/man3/jaywardrobe.3
	install -d $(DESTDIR)$(LIBDIR)/pkgconfig
	sed 's|@PREFIX@|$(PREFIX)|; s|@LIBDIR@|$(LIBDIR)|; s|@INCLUDEDIR@|$(INCLUDEDIR)|' jaywardrobe.pc.in \
		> $(DESTDIR)$(LIBDIR)/pkgconfig/jaywardrobe.pc

uninstall:
	rm -f $(addprefix $(DESTDIR),$(BINDIR)/scmgc $(MANDIR)/man1/scmgc.1 $(MANDIR)/man3/jaywardrobe.3)
	rm -f $(addprefix $(DESTDIR),$(LIBDIR)/libjaywardrobe.a $(LIBDIR)/pkgconfig/jaywardrobe.pc)
	rm -f $(addprefix $(DESTDIR)$(INCLUDEDIR)/,$(notdir $(wildcard include/*.h)))

clean:
	rm -rf out crates/*/out

.DEFAULT_GOAL := help
.PHONY: help try build run check bindings lists test walks kernel-walks stress bench try-lib lib archive embed clients bench-c unixbox \
	install install-program install-library uninstall clean
