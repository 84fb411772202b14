# Installing, and the archive for hosts without the toolchain. Part of the Makefile at the top.
PREFIX ?= /usr/local
VERSION := $(shell awk '$$2 == "POOL_VERSION" { gsub(/"/, "", $$3); print $$3 }' include/pool.h)
SONAME := libpool.so.$(firstword $(subst ., ,$(VERSION)))
SHARED := libpool.so.$(VERSION)
MADE := target/install
PACK := pool-$(VERSION)-x86_64-linux
DOC := share/doc/pool
TO = $(DESTDIR)$(PREFIX)
# What is installed, below the prefix.
FILES := include/pool.h include/pool_refusals.def lib/libpool.a lib/$(SHARED) lib/$(SONAME) lib/libpool.so lib/pkgconfig/pool.pc \
    bin/recount bin/recount-input share/man/man1/recount.1 $(DOC)/LICENSE $(DOC)/CHANGELOG.md $(DOC)/GO.txt

# The names that the shared library shows: the functions that the header declares.
$(MADE)/pool.map: include/pool.h
	@mkdir -p $(MADE)
	@(echo 'POOL_0 {'; echo 'global:'; $(CC) -E -P $< | grep -o 'pool_[a-z_]*(' | sort -u | tr '(' ';'; echo 'local: *;'; echo '};') >$@

# Every part of the archive is position independent: the linker would refuse it here if it were not.
$(MADE)/$(SHARED): $(ARCHIVE) $(MADE)/pool.map
	@$(CC) -shared -Wl,-soname,$(SONAME),--version-script=$(MADE)/pool.map,-z,defs,-z,relro,-z,now,-z,text \
	    -Wl,--whole-archive $(ARCHIVE) -Wl,--no-whole-archive -o $@

$(MADE)/pool.pc: include/pool.pc.in include/pool.h
	@mkdir -p $(MADE)
	@sed 's/@VERSION@/$(VERSION)/' $< >$@

# The manual page, with the refusals of their table.
$(MADE)/recount.1: docs/recount.1 include/pool_refusals.def include/pool.h
	@mkdir -p $(MADE)
	@sed -n 's/^REFUSAL(\([0-9]*\), \([A-Z_]*\), "\(.*\)", "\(.*\)")$$/.TP\n.B \1 POOL_\2\n\3; \4./p' include/pool_refusals.def \
	    >$@.refusals
	@sed -e 's/@VERSION@/$(VERSION)/' -e '/^@REFUSALS@$$/{' -e 'r $@.refusals' -e 'd' -e '}' $< >$@

install: $(ARCHIVE) $(MADE)/$(SHARED) $(MADE)/pool.pc $(MADE)/recount.1 target/bin/recount target/hosts/recount-input
	@install -d $(addprefix $(TO)/,$(sort $(dir $(FILES))))
	@install -m 644 include/pool.h include/pool_refusals.def $(TO)/include
	@install -m 644 $(ARCHIVE) $(TO)/lib
	@install -m 755 $(MADE)/$(SHARED) $(TO)/lib
	@ln -sfn $(SHARED) $(TO)/lib/$(SONAME)
	@ln -sfn $(SONAME) $(TO)/lib/libpool.so
	@install -m 644 $(MADE)/pool.pc $(TO)/lib/pkgconfig
	@install -m 755 target/bin/recount target/hosts/recount-input $(TO)/bin
	@install -m 644 $(MADE)/recount.1 $(TO)/share/man/man1
	@install -m 644 LICENSE CHANGELOG.md hosts/install/GO.txt $(TO)/$(DOC)

uninstall:
	@rm -f $(addprefix $(TO)/,$(FILES))
	@rmdir $(TO)/$(DOC) 2>/dev/null || true

# The same bytes from the same sources: sorted names, one time for all files, owner 0. The folder goes, since the gate takes no
# checkout with links in it.
dist:
	@rm -rf target/dist/$(PACK)
	@$(MAKE) -s --no-print-directory install DESTDIR= PREFIX=$(CURDIR)/target/dist/$(PACK)
	@cd target/dist/$(PACK) && find * -type f | LC_ALL=C sort | xargs sha256sum >.sums && mv .sums SHA256SUMS
	@tar -C target/dist --sort=name --mtime=@946684800 --owner=0 --group=0 --numeric-owner --mode=u=rwX,go=rX --format=ustar \
	    -cf - $(PACK) | gzip -9n >target/dist/$(PACK).tar.gz
	@rm -rf target/dist/$(PACK)
	@cd target/dist && sha256sum $(PACK).tar.gz >$(PACK).tar.gz.sha256
	@echo target/dist/$(PACK).tar.gz
