# make: the library, the command and the line program, in build/. make run: what kg/m.s means in each notation, and four labels rewritten;
# NOTATION=cds LABEL='km/h' for another label. make install PREFIX=/usr/local DESTDIR=: installs what is in build/, after building what is missing
# there. make uninstall: removes what it installed.
# make test: every program of tests/. make compare SEED=1: a million cases against the second implementation, tests/independent.py.
# make guard COUNT=100000: random inputs through each call, with watched buffers, under sanitizers and under valgrind.
# make bench: how long reading takes and how much stack, beside other readers; see docs/PERFORMANCE.md. make clean: removes build/.
NOTATION = all
export LABEL = kg/m.s
COUNT = 300000
SEED = 1
CC = gcc
CFLAGS = -std=c11 -O2 -Wall -Wextra -Werror
SANITIZERS = -g -fsanitize=address,undefined -fno-sanitize-recover=all
LIBRARY = build/libthalinguze.a
SHARED = build/libthalinguze.so
HEADERS = include/thalinguze.h $(wildcard c/*.h)
SOURCES = $(wildcard c/*.c)
PARTS = $(patsubst c/%.c,build/%.o,$(SOURCES))
TESTS = $(addprefix build/tests/,limits header advice stack guard guard-plain typing typing-plain rewrite words convert thalinguze)

# The version is the three numbers of the header. The shared library's soname has the first.
VERSION := $(shell sed -n 's/^.define THALINGUZE_VERSION_[A-Z]* \([0-9][0-9]*\)$$/\1/p' include/thalinguze.h | paste -s -d .)
SONAME = libthalinguze.so.$(firstword $(subst ., ,$(VERSION)))

# $(call needs,PROGRAM): one sentence, and the end, where what builds a file is not on the path
needs = $(if $(shell command -v $(firstword $(1)) 2>/dev/null),,$(error $(firstword $(1)) is missing, and $@ is built with it: \
section "Needed" of README.md says where it comes from))

PAGES = $(notdir $(wildcard man/*))
BUILT = $(LIBRARY) $(SHARED) build/thalinguze build/label-lines $(addprefix build/man/,$(PAGES))
all: $(BUILT)

# The four sample lines of document 01 are the first of vectors/lines.in.
run: all
	@build/thalinguze read $(NOTATION) "$$LABEL" || test $$? = 1
ifeq ($(origin LABEL)-$(origin NOTATION),file-file)
	@echo
	@echo 'Lines, each with an id, a notation, a label and the notation to write it in:'
	@head -n 4 vectors/lines.in
	@echo
	@echo 'What build/label-lines answers, each with the id, 0 or the number of a refusal, and the label as rewritten:'
	@head -n 4 vectors/lines.in | build/label-lines
endif

test: all $(TESTS)
	@tests/vectors.sh
	@build/tests/limits
	@tests/library.sh
	@tests/header.sh
	@build/tests/advice
	@tests/command.sh build/tests/thalinguze
	@tests/readme.sh
	@tests/second.sh 5000 1 1
	@tests/independent.sh
	@tests/stack.sh
	@tests/guard.sh
	@tests/typing.sh
	@tests/lines.sh
	@tests/make.sh
	@tests/install.sh

compare: all build/tests/rewrite build/tests/words build/tests/convert
	@tests/second.sh $(COUNT) $(SEED) 1000
	@tests/independent.sh

guard: COUNT = 100000
guard: all $(addprefix build/tests/,guard guard-plain typing typing-plain)
	@tests/guard.sh $(COUNT) $(COUNT)
	@tests/typing.sh $(COUNT) 1

bench: $(LIBRARY)
	@bench/run.sh

clean:
	rm -rf build

# INSTALLING

PREFIX ?= /usr/local
BINDIR = $(PREFIX)/bin
INCLUDEDIR = $(PREFIX)/include
LIBDIR = $(PREFIX)/lib
PKGCONFIGDIR = $(LIBDIR)/pkgconfig
MANDIR = $(PREFIX)/share/man
SHARED_NAMES = libthalinguze.so.$(VERSION) $(SONAME) libthalinguze.so
INSTALLED = $(INCLUDEDIR)/thalinguze.h $(LIBDIR)/libthalinguze.a $(addprefix $(LIBDIR)/,$(SHARED_NAMES)) $(PKGCONFIGDIR)/thalinguze.pc \
	$(BINDIR)/thalinguze $(BINDIR)/label-lines $(foreach page,$(PAGES),$(MANDIR)/man$(subst .,,$(suffix $(page)))/$(page))

# What is there is installed as it is: no proof is checked again.
install: $(filter-out $(wildcard $(BUILT)),$(BUILT))
	install -d $(foreach directory,$(sort $(dir $(INSTALLED))),'$(DESTDIR)$(directory)')
	install -m 644 include/thalinguze.h '$(DESTDIR)$(INCLUDEDIR)'
	install -m 644 $(LIBRARY) '$(DESTDIR)$(LIBDIR)'
	install -m 755 $(SHARED) '$(DESTDIR)$(LIBDIR)/libthalinguze.so.$(VERSION)'
	ln -sf libthalinguze.so.$(VERSION) '$(DESTDIR)$(LIBDIR)/$(SONAME)'
	ln -sf $(SONAME) '$(DESTDIR)$(LIBDIR)/libthalinguze.so'
	sed 's|@PREFIX@|$(PREFIX)|; s|@LIBDIR@|$(LIBDIR)|; s|@INCLUDEDIR@|$(INCLUDEDIR)|; s|@VERSION@|$(VERSION)|' thalinguze.pc.in \
		>'$(DESTDIR)$(PKGCONFIGDIR)/thalinguze.pc'
	chmod 644 '$(DESTDIR)$(PKGCONFIGDIR)/thalinguze.pc'
	install -m 755 build/thalinguze build/label-lines '$(DESTDIR)$(BINDIR)'
	for page in $(PAGES); do install -m 644 "build/man/$$page" '$(DESTDIR)$(MANDIR)/man'"$${page##*.}" || exit 1; done

uninstall:
	rm -f $(foreach file,$(INSTALLED),'$(DESTDIR)$(file)')

# BUILDING

# What is proved; what rt keeps in crates/*/out is not part of it.
PROVED = crates.txt $(shell find crates -name out -prune -o \( -name '*.rt' -o -name '*.antt' \) -print)

# $(call prove,CRATE,COMMAND,LOG): rt's command in the crate's folder, with nothing to read. A line for each crate that is proved anew is shown; the whole
# log stays in build/. Where the command fails the log's end is shown, without the lines that only count.
define prove
@mkdir -p build
@{ (cd crates/$(1) && $(2)) </dev/null 2>&1; echo "exit status $$?"; } | tee build/$(3) | $(outcomes)
@tail -n 1 build/$(3) | grep -qx 'exit status 0' || { grep -Ev $(counts) build/$(3) | tail -n 20; false; }
endef
outcomes = sed -un '/^crate /{s/^crate \([^:]*\).*/\1/;h;}; /^logic=/{G;s/^logic=\([a-z-]*\).*\n\(.*\)/rt: \2 \1/p;}'
counts = '^(logic|library|statements|crate|axioms) |: proved$$'

# The proofs are checked before the proved part of the library is made.
build/libface.a: $(PROVED)
	$(call needs,rt)
	@echo 'checking the proofs of the reader and building its library: some minutes'
	$(call prove,face,rt lib,library.log)
	cp crates/face/out/libface.a $@

# The library is the proved part and its version.
$(LIBRARY): build/libface.a build/version.o
	cp build/libface.a $@.part
	ar rcs $@.part build/version.o
	mv $@.part $@

# It has nothing to start, so it needs no start files.
$(SHARED): $(LIBRARY)
	$(CC) -shared -nostartfiles -Wl,-soname,$(SONAME) -Wl,-z,defs,-z,now,-z,relro -o $@ -Wl,--whole-archive $< -Wl,--no-whole-archive

build/version.o: lib/version.c include/thalinguze.h
	$(call needs,$(CC))
	@mkdir -p build
	$(CC) $(CFLAGS) -fPIC -c -o $@ $<

# A page of the manual has the version, and the C example in place of its line @EXAMPLE@.
build/man/%: man/% build/labels.roff include/thalinguze.h
	@mkdir -p build/man
	sed -e 's/@VERSION@/$(VERSION)/' -e '/^@EXAMPLE@$$/{' -e 'r build/labels.roff' -e d -e '}' $< >$@

build/labels.roff: examples/labels.c
	@mkdir -p build
	sed 's/\\/\\e/g; s/-/\\-/g; s/'\''/\\(aq/g; s/^\./\\\&./' $< >$@

# The line program is proved, built and run once on nothing by rt run; after the library, since two checks at once would write the same files.
build/label-lines: $(PROVED) | build/libface.a
	$(call needs,rt)
	@echo 'checking the proofs of the line program and building it: some minutes'
	$(call prove,label_lines,rt run,lines.log)
	cp crates/label_lines/out/label_lines $@

build/%.o: c/%.c $(HEADERS)
	$(call needs,$(CC))
	@mkdir -p build
	$(CC) $(CFLAGS) -c -o $@ $<

build/thalinguze: $(PARTS) $(LIBRARY)
	$(CC) -o $@ $^

build/tests/%: tests/%.c $(wildcard tests/*.h) $(HEADERS) $(LIBRARY)
	@mkdir -p build/tests
	$(CC) $(CFLAGS) -o $@ $(filter %.c,$^) $(LIBRARY)

build/tests/stack: CFLAGS += -pthread
build/tests/guard build/tests/typing build/tests/advice build/tests/rewrite build/tests/words build/tests/convert: CFLAGS += $(SANITIZERS)

# the command under the sanitizers
build/tests/thalinguze: $(SOURCES) $(HEADERS) $(LIBRARY)
	@mkdir -p build/tests
	$(CC) $(CFLAGS) $(SANITIZERS) -o $@ $(filter %.c,$^) $(LIBRARY)

build/tests/advice: $(filter-out c/thalinguze.c,$(SOURCES))
build/tests/advice: LIBRARY += -lm

build/tests/guard-plain build/tests/typing-plain: build/tests/%-plain: tests/%.c $(wildcard tests/*.h) $(HEADERS) $(LIBRARY)
	@mkdir -p build/tests
	$(CC) $(CFLAGS) -g -o $@ $< $(LIBRARY)

.PHONY: all run test compare guard bench install uninstall clean
