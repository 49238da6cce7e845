# The commands of README.md.

VERSION := $(shell sed -n 's/.*define SALNEGRIS_VERSION "\(.*\)"$$/\1/p' include/salnegris.h)
PREFIX ?= /usr/local
RECIPE ?= samples/R1.recipe
# of the long comparison: inputs to try, and where its choices begin
N ?= 10000000
SEED ?= 1
# what a build takes: the header, the archive, the pkg-config file
LIB = target/lib
# what a proof is made of
PROVED = crates.txt $(shell find crates -name out -prune -o \( -name '*.rt' -o -name '*.antt' \) -print)

.DEFAULT_GOAL = check

# build the rehearsal program and rehearse a recipe
.PHONY: rehearse
rehearse: target/bin/rehearse
	@target/bin/rehearse <"$(RECIPE)"

# proved CRATE COMMAND: the command builds the crate; what it says goes to target/CRATE.log, and to the screen if it refuses
define proved
@[ -e $@ ] || echo "proving and building $@; the first time takes some minutes" >&2
@mkdir -p $(@D)
@(cd crates/$(1) && $(2)) >target/$(1).log 2>&1 </dev/null || { cat target/$(1).log >&2; exit 1; }
endef

# The rehearsal program, and the one that puts document 01's cases through the library. What builds a program also runs it, here on
# no input.
target/bin/rehearse: $(PROVED)
	$(call proved,rehearse_main,rt run)
	@install -m 755 crates/rehearse_main/out/rehearse_main $@

target/bin/cases: $(PROVED)
	$(call proved,cases,rt run)
	@install -m 755 crates/cases/out/cases $@

# the whole gate
.PHONY: test
test:
	@scripts/test

# what has changed since it was last proved, without the must-fail edits
.PHONY: check
check:
	@rt all check

# the static library with its header
.PHONY: lib
lib: $(LIB)/salnegris.h $(LIB)/libsalnegris.a
	@echo "$(LIB) has salnegris.h and libsalnegris.a"

$(LIB)/libsalnegris.a: $(PROVED)
	$(call proved,salnegris_c,rt lib)
	@install -m 644 crates/salnegris_c/out/libsalnegris_c.a $@

$(LIB)/salnegris.h: include/salnegris.h
	@install -D -m 644 $< $@

.PHONY: install
install: lib
	install -d "$(DESTDIR)$(PREFIX)/include" "$(DESTDIR)$(PREFIX)/lib/pkgconfig"
	install -m 644 $(LIB)/salnegris.h "$(DESTDIR)$(PREFIX)/include"
	install -m 644 $(LIB)/libsalnegris.a "$(DESTDIR)$(PREFIX)/lib"
	sed -e 's|@PREFIX@|$(PREFIX)|' -e 's|@VERSION@|$(VERSION)|' include/salnegris.pc.in \
		>"$(DESTDIR)$(PREFIX)/lib/pkgconfig/salnegris.pc"

# the example worker, at target/worker
.PHONY: worker
worker: lib
	@gcc -std=c99 -O2 -Wall -Wextra -I$(LIB) examples/worker.c -L$(LIB) -lsalnegris -o target/worker
	@echo "target/worker FOLDER.. says what it does with each run folder"

# the library beside the second program on N inputs
.PHONY: fuzz
fuzz: compare
	@target/rust/release/compare long $(N) $(SEED)

# the library's time beside plain Rust's; or, with OLD=archive, beside that of another archive of the library
.PHONY: bench
bench: compare
	@$(if $(OLD),scripts/beside "$(OLD)" $(LIB)/libsalnegris.a,target/rust/release/bench)

.PHONY: compare
compare: lib
	@cd rust && cargo build --release --quiet --package compare

.PHONY: clean
clean:
	rm -rf target crates/*/out
