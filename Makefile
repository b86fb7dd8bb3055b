# Every goal needs the Rattle toolchain's command `rt` on the path. `make check-tools` says what else is missing.

RT ?= rt
PROGRAM := crates/gv_cli
SOURCES := crates.txt HANDLES $(shell find crates -type f \( -name '*.rt' -o -name '*.antt' \) -not -path '*/out/*')

.PHONY: goals check-tools build try run test check-documents long must-fail-long gate-minutes fuzz refuse-memory measure clean lib install install-program install-library uninstall package \
    install-test capi-test capi-measure

# Lists the goals and what each does.
goals:
	@sed -n 's/^\([a-z-]*\):[^#]*## /\1 /p' Makefile | while read -r goal words; do printf 'make %-16s %s\n' "$$goal" "$$words"; done

# One line: what the goals need and this machine doesn't have.
check-tools: ## says what is missing on this machine
	@RT="$(RT)" CC="$(CC)" CXX="$(CXX)" tools/check-tools

# The proved program, at ./vmbind.
build: vmbind ## proves the program and leaves it at ./vmbind

vmbind: $(SOURCES)
	@echo 'Proves the program and the crates below it, then builds it: some 80 minutes of processor time, less where an'
	@echo 'earlier run has left its proofs. "make run" shows the first example without them.'
	@RT="$(RT)" tools/prove gv_cli
	cd $(PROGRAM) && $(RT) run -- --help > /dev/null
	cp $(PROGRAM)/out/gv_cli vmbind

# Runs the first example and prints its replies. The build is without proofs.
run: ## runs the first example, built without proofs
	@echo '--- examples/first.vmb'
	@cat examples/first.vmb
	@echo '--- its replies, from a build without proofs: that takes one to three minutes'
	@RT="$(RT)" tools/try run < examples/first.vmb
	@echo '--- "make build" proves the program and leaves it at ./vmbind; "make try SCRIPT=my.vmb" runs your own script as this one'

# Runs your own script, and says why a line is bad. Standard output has the replies and nothing else.
SCRIPT ?= examples/first.vmb
WORDS ?= run --explain
try: ## runs SCRIPT=my.vmb, built without proofs
	@RT="$(RT)" tools/try $(WORDS) < "$(SCRIPT)"

# The gate: proofs, mutations that must be refused, tests and programs. It proves and tries again only what changed since a run that
# passed on this machine, and the crates above (kit 13b: everything). Before that, checks that no contract can make: the functions of
# the timelines don't wait (a function may wait only under the bound `Wait`), an undo value can't be dropped, and the documents name
# what exists. After that, a dialogue with the built program over two pipes.
# With 4 GiB of free memory for each core the gate runs one part on each core (a part was seen to take 5.1 GB). With less, the
# toolchain chooses how many run at once. It reckons with up to 7.4 GB for a part.
LANES = $(shell awk -v cores="$$(nproc)" '/^MemAvailable:/ && $$2 >= cores * 4194304 { print cores }' /proc/meminfo 2>/dev/null)
test: check-documents ## the gate: proofs, mutations that must be refused, tests, programs
	@! grep -rnw Wait crates/gv_sync/src
	@RT="$(RT)" tools/check-undo
	RT_JOBS=$(LANES) $(RT) ci
	@sh examples/dialogue.sh $(PROGRAM)/out/gv_cli > /dev/null

# Checks the paths, names of code, links and counts in the documents.
check-documents: ## checks what the documents name
	@tools/check-documents

# Runs what the gate leaves out: the mutations in must-fail-long, the programs in long/, the tests of gv_c, refuse-memory, ten minutes of
# fuzz, capi-test and install-test. It leaves the proved program at ./vmbind. If OLD is the folder of an older build, also
# bench/run --guard and bench/neighbours against it. The last line is 'N passed, M failed'.
long: SECONDS = 600
long: ## runs what the gate leaves out
	@RT="$(RT)" OLD="$(OLD)" SEED="$(SEED)" CC="$(CC)" CXX="$(CXX)" tools/long $(SECONDS)

# Tries the mutations in crates/NAME/must-fail-long, which the gate leaves out: the prover must refuse each. `make long` does so too.
# The last line is 'N passed, M failed'.
must-fail-long: ## tries the mutations that the gate leaves out
	@RT="$(RT)" tools/must-fail-long

# Runs the gate and prints each crate's processor minutes.
gate-minutes: ## prints the processor minutes of each crate in the gate
	@RT="$(RT)" tools/gate-minutes

# Runs random scripts from SEED on for SECONDS seconds, each by the program and by a model written from the definitions. A script on
# which they differ is shrunk and printed. The last line is 'N passed, M failed'. The gate runs a few.
SECONDS ?= 60
SEED ?= 1000
fuzz: ## runs random scripts against the model, SECONDS=60
	cd crates/gv_fuzz && $(RT) run -- --seed $(SEED) --seconds $(SECONDS)

# Refuses memory, which the gate can't do: a long script under limits of the process's addresses; then events, calls on a space, on a
# journal and on running queues, a script, and every example, with each request for memory refused in turn. It compares each run
# with its allowed results. The last line is 'N passed, M failed'.
refuse-memory: vmbind ## refuses each request for memory in turn
	@RT="$(RT)" tools/refuse-memory

# Measures edits, look-ups and running queues on this machine, by programs of long/.
measure: ## prints times of edits, look-ups and running queues
	@work=$$(mktemp -d) && trap 'rm -rf "$$work"' EXIT && tools/lay-long "$$work" && cd "$$work" && $(RT) ci 1>&2 && \
	    for name in gv_bench gv_queues_bench; do "crates/$$name/out/$$name" > /dev/null || exit 1; done

# The C library in capi/build: an archive, a shared library, the header, the C++ owner, the Python module, and a file for pkg-config.
# gv_c and the crates below it are proved first, unless an earlier run of this goal has left their proofs. The gate's proofs don't
# serve here. docs/C.md is for users.
CC ?= cc
PREFIX ?= /usr/local
LIBDIR ?= $(PREFIX)/lib
DESTDIR ?=
CAPI := capi/build
SHOWN := capi/vmbind.h capi/vmbind.hpp capi/vmbind.py
KIT = $(dir $(shell readlink -f "$$(command -v $(RT))"))..
VERSION = $(shell awk '/^.define VMBIND_VERSION_(MAJOR|MINOR|PATCH) / { v = v dot $$3; dot = "." } END { print v }' capi/vmbind.h)
LIBRARY := $(CAPI)/libvmbind.a $(CAPI)/libvmbind.so $(SHOWN:capi/%=$(CAPI)/%) $(CAPI)/vmbind.pc

lib: $(LIBRARY) ## builds the C library in capi/build

# The toolchain's archive of the exports. With LIB_IS_BUILT a library that exists is not built again.
$(CAPI)/libgv_c.a: $(if $(LIB_IS_BUILT),,$(SOURCES))
	@mkdir -p $(CAPI)
	@RT="$(RT)" tools/prove gv_c
	cd crates/gv_c && $(RT) lib
	cp crates/gv_c/out/libgv_c.a $@

# Adds the toolchain's functions that call malloc and free.
$(CAPI)/libvmbind.a: $(CAPI)/libgv_c.a capi/vmbind.h tools/one-object
	@CC="$(CC)" tools/one-object $@ $< $(KIT)/c/liblibc_c.a

$(CAPI)/libvmbind.so: $(CAPI)/libvmbind.a capi/vmbind.map
	$(CC) -shared -Wl,-soname,libvmbind.so.0 -Wl,--version-script=capi/vmbind.map -Wl,--no-undefined -Wl,--gc-sections \
	    -Wl,-z,relro,-z,now -Wl,--whole-archive $< -Wl,--no-whole-archive -o $@

$(SHOWN:capi/%=$(CAPI)/%): $(CAPI)/%: capi/%
	@mkdir -p $(CAPI)
	cp $< $@

# described FILE PREFIX INCLUDE LIB: writes where the library is, for pkg-config or CMake. CMake finds it by the way from the file's folder.
described = sed 's|@PREFIX@|$(2)|; s|@INCLUDE@|$(3)|; s|@LIB@|$(4)|; s|@VERSION@|$(VERSION)|; s|@MINOR@|$(basename $(VERSION))|' capi/$(1).in
TO_INCLUDE = $(shell realpath -m --relative-to='$(LIBDIR)/cmake/vmbind' '$(PREFIX)/include')

$(CAPI)/vmbind.pc: capi/vmbind.pc.in capi/vmbind.h
	@mkdir -p $(CAPI)
	$(call described,vmbind.pc,$(CURDIR)/$(CAPI),$(CURDIR)/$(CAPI),$(CURDIR)/$(CAPI)) > $@

# What `make install` puts below DESTDIR, by install-program and install-library.
MANUALS := $(PREFIX)/share/man/man1/vmbind.1 $(PREFIX)/share/man/man5/vmbind-script.5
COMPLETIONS := $(PREFIX)/share/bash-completion/completions/vmbind $(PREFIX)/share/zsh/site-functions/_vmbind \
    $(PREFIX)/share/fish/vendor_completions.d/vmbind.fish
INSTALLED := $(PREFIX)/bin/vmbind $(MANUALS) $(COMPLETIONS) $(PREFIX)/include/vmbind.h $(PREFIX)/include/vmbind.hpp \
    $(PREFIX)/share/vmbind/vmbind.py $(LIBDIR)/libvmbind.a $(LIBDIR)/libvmbind.so $(LIBDIR)/libvmbind.so.0 $(LIBDIR)/pkgconfig/vmbind.pc \
    $(LIBDIR)/cmake/vmbind/vmbind-config.cmake $(LIBDIR)/cmake/vmbind/vmbind-config-version.cmake

install: install-program install-library ## installs program, manual, completions and C library below PREFIX

install-program: $(if $(PROGRAM_IS_BUILT),,vmbind)
	install -d $(sort $(dir $(addprefix $(DESTDIR),$(PREFIX)/bin/vmbind $(MANUALS) $(COMPLETIONS))))
	install -m 755 vmbind $(DESTDIR)$(PREFIX)/bin
	tools/manual ./vmbind > $(DESTDIR)$(word 1,$(MANUALS))
	tools/manual docs/SCRIPT.md > $(DESTDIR)$(word 2,$(MANUALS))
	tools/completions bash ./vmbind > $(DESTDIR)$(word 1,$(COMPLETIONS))
	tools/completions zsh ./vmbind > $(DESTDIR)$(word 2,$(COMPLETIONS))
	tools/completions fish ./vmbind > $(DESTDIR)$(word 3,$(COMPLETIONS))

install-library: lib
	install -d $(DESTDIR)$(PREFIX)/include $(addprefix $(DESTDIR)$(LIBDIR)/,pkgconfig cmake/vmbind) $(DESTDIR)$(PREFIX)/share/vmbind
	install -m 644 capi/vmbind.h capi/vmbind.hpp $(DESTDIR)$(PREFIX)/include
	install -m 644 $(CAPI)/libvmbind.a $(DESTDIR)$(LIBDIR)
	install -m 755 $(CAPI)/libvmbind.so $(DESTDIR)$(LIBDIR)/libvmbind.so.0
	ln -sf libvmbind.so.0 $(DESTDIR)$(LIBDIR)/libvmbind.so
	install -m 644 capi/vmbind.py $(DESTDIR)$(PREFIX)/share/vmbind
	$(call described,vmbind.pc,$(PREFIX),$(PREFIX)/include,$(LIBDIR)) > $(DESTDIR)$(LIBDIR)/pkgconfig/vmbind.pc
	for file in vmbind-config.cmake vmbind-config-version.cmake; do \
	    $(call described,$$file,$(PREFIX),$(TO_INCLUDE),../..) > $(DESTDIR)$(LIBDIR)/cmake/vmbind/$$file || exit 1; done

uninstall: ## removes what `make install` installed, with the same PREFIX, LIBDIR and DESTDIR
	rm -f $(addprefix $(DESTDIR),$(INSTALLED))
	for folder in $(LIBDIR)/cmake/vmbind $(PREFIX)/share/vmbind; do ! [ -d "$(DESTDIR)$$folder" ] || rmdir "$(DESTDIR)$$folder" || exit 1; done

# A Debian package and an archive of the program, the library and the Python module, in package/. COPYRIGHT names the file of licences
# that the package gets as its copyright file.
package: $(if $(PROGRAM_IS_BUILT),,vmbind) lib ## leaves a .deb and a .tar.xz in package/
	@COPYRIGHT="$(COPYRIGHT)" tools/package $(VERSION)

# Installs, packages and removes all of it in a folder of its own, and as root also by dpkg. The last line is 'N passed, M failed'.
install-test: $(if $(PROGRAM_IS_BUILT),,vmbind) lib ## tests install, uninstall and package
	@CC="$(CC)" tools/install-test

# Tests the C library. `make test` leaves this out, since a build of the library proves its crates once more. If ./vmbind exists (make
# build), random scripts are compared with what it writes. The last line is 'N passed, M failed'. BINDS is the number of binds in the
# run that must take flat memory, and of lines in a dialogue with ./vmbind.
SCRIPTS ?= 200
BINDS ?= 1000000
capi-test: lib ## tests the C library
	@CC="$(CC)" CXX="$(CXX)" SEED=$(SEED) SCRIPTS=$(SCRIPTS) BINDS=$(BINDS) tools/capi-test

# Measures calls from C and from Python on this machine.
capi-measure: lib ## prints times of calls from C and from Python
	$(CC) -std=c11 -O2 -Icapi capi/tests/speed.c $(CAPI)/libvmbind.a -o $(CAPI)/speed && $(CAPI)/speed
	VMBIND_LIBRARY=$(CURDIR)/$(CAPI)/libvmbind.so python3 capi/tests/speed.py

clean: ## removes all that was built
	rm -rf vmbind crates/*/out $(CAPI) package
