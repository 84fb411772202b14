# The commands of the README, and what is handy beside them.
.PHONY: help demo run test fuzz bench format install uninstall dist

# The sources that the C functions are made from, and the archives: of the core, and of the whole library.
SOURCES := crates.txt $(shell find crates -name out -prune -o \( -name '*.rt' -o -name '*.antt' \) -print)
CORE := target/staticlib/libpool_core.a
ARCHIVE := target/staticlib/libpool.a

help:
	@echo 'make demo       prove the core and run a whole pool on this machine, from C'
	@echo 'make run        prove what is needed, then run the worked examples'
	@echo 'make test       the merge gate: prove everything and run every test'
	@echo 'make install    install header, libraries, recount and pages (PREFIX=/usr/local, DESTDIR=)'
	@echo 'make uninstall  remove them'
	@echo 'make dist       write an archive of what is installed, for hosts without the toolchain'
	@echo 'make fuzz       feed arbitrary bytes to the C functions for a minute (FUZZ_SECONDS=..)'
	@echo 'make bench      measure the library, with the second program beside it'
	@echo 'make format     lay out the sources'

demo:
	@tools/kit
	@$(MAKE) --no-print-directory target/hosts/demo
	@echo 'Running the demo.'
	@target/hosts/demo

target/hosts/demo: hosts/c/demo.c hosts/c/host.h hosts/c/servers.h include/pool.h $(ARCHIVE)
	@mkdir -p target/hosts
	@echo 'Linking the demo.'
	@$(CC) -std=c11 -O2 -Wall -Wextra -Iinclude hosts/c/demo.c $(ARCHIVE) -o $@

target/hosts/recount-input: hosts/recount/recount-input.c hosts/c/host.h include/pool.h $(ARCHIVE)
	@mkdir -p target/hosts
	@$(CC) -std=c11 -O2 -Wall -Wextra -Iinclude -Ihosts/c hosts/recount/recount-input.c $(ARCHIVE) -o $@

$(CORE): $(SOURCES)
	@tools/core $@ pool_c

target/staticlib/pool_words.o: include/pool_words.c include/pool_refusals.def include/pool.h
	@mkdir -p $(@D)
	@$(CC) -std=c11 -O2 -fPIC -Wall -Wextra -Iinclude -c $< -o $@

$(ARCHIVE): $(CORE) target/staticlib/pool_words.o
	@cp $(CORE) $@.new
	@ar rDs $@.new target/staticlib/pool_words.o
	@mv $@.new $@

target/staticlib/lib%.a: $(SOURCES)
	@tools/core $@ $*_c

# A program: rt run proves, links and runs it.
target/bin/%: $(SOURCES)
	@mkdir -p target/bin
	@cd crates/$* && rt run >$(CURDIR)/target/$*.log 2>&1 </dev/null || { cat $(CURDIR)/target/$*.log; exit 1; }
	@cp crates/$*/out/$* $@.new
	@mv $@.new $@

run: target/bin/worked_forms target/bin/worked_pools
	@target/bin/worked_forms
	@target/bin/worked_pools

test:
	@.ci/run

fuzz:
	@hosts/harden/fuzz

bench:
	@bench/run

format:
	@for crate in crates/*/; do (cd $$crate && rt fmt) || exit 1; done

include hosts/install/install.mk
