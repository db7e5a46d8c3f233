# The engine's library and the listing program: proved, built, installed, released (install/README.md).
#   make             proves and builds both: a quarter of an hour the first time
#   make install     into PREFIX, below DESTDIR where one is given; builds first where nothing is built
#   make uninstall   takes away what install brought
#   make release     target/sif-VERSION and target/sif-VERSION.tar.gz
#   make check       all tests: ./test
#   make clean       removes all that was made, the proofs' results too

SHELL := bash
.SHELLFLAGS := -euo pipefail -c
.DELETE_ON_ERROR:

PREFIX = /usr/local
DESTDIR =
bindir = $(PREFIX)/bin
includedir = $(PREFIX)/include
libdir = $(PREFIX)/lib
docdir = $(PREFIX)/share/doc/sif
# the prefix as sif.pc has it
prefix_told = $(PREFIX)

# the version stands in the header alone
VERSION := $(shell sed -n 's/^.define SIF_VERSION //p' include/sif.h)
# the time of every file in a release: the last commit's
SOURCE_DATE_EPOCH ?= $(shell git log -1 --format=%ct 2> /dev/null || echo 0)

made := target/made
release := target/sif-$(VERSION)
headers := include/sif.h include/sif_read.h
documents := NOTICE docs/FORMATS.md examples/page.c $(made)/VERDICT $(made)/KIT
installed = $(bindir)/sif-listing $(libdir)/libsif.a $(libdir)/pkgconfig/sif.pc \
	$(addprefix $(includedir)/,$(notdir $(headers))) $(addprefix $(docdir)/,$(notdir $(documents)))
told = $(patsubst $(PREFIX)/%,$${prefix}/%,$(1))

.PHONY: all install uninstall release check clean

all: $(made)/VERDICT

# The verdicts come last, the library's and the program's, each behind its name: where they stand, the rest does.
$(made)/VERDICT: crates.txt $(shell find crates -name out -prune -o -print)
	install/build listing
	compare/library
	install -d $(made)
	install -m 644 target/staticlib/libengine.a $(made)/libsif.a
	install -m 755 target/bin/listing $(made)/sif-listing
	rt version > $(made)/KIT
	sed 's/^/libsif.a: /' target/cross/verdict > $@
	sed 's/^/sif-listing: /' target/verdict/listing >> $@

install: all
	install -d $(sort $(addprefix $(DESTDIR),$(dir $(installed))))
	install -m 755 $(made)/sif-listing $(DESTDIR)$(bindir)/
	install -m 644 $(made)/libsif.a $(DESTDIR)$(libdir)/
	install -m 644 $(headers) $(DESTDIR)$(includedir)/
	install -m 644 $(documents) $(DESTDIR)$(docdir)/
	sed 's|@PREFIX@|$(prefix_told)|; s|@INCLUDEDIR@|$(call told,$(includedir))|; s|@LIBDIR@|$(call told,$(libdir))|; s|@VERSION@|$(VERSION)|' \
		install/sif.pc.in > $(DESTDIR)$(libdir)/pkgconfig/sif.pc
	chmod 644 $(DESTDIR)$(libdir)/pkgconfig/sif.pc

uninstall:
	rm -f $(addprefix $(DESTDIR),$(installed))
	[ ! -d $(DESTDIR)$(docdir) ] || rmdir --ignore-fail-on-non-empty $(DESTDIR)$(docdir)

# An install into a folder of its own, whose sif.pc goes by where it lies; with the commit and the sums of all files.
release: all
	rm -rf $(release)
	$(MAKE) --no-print-directory install DESTDIR=$(release) PREFIX= docdir= prefix_told='$$$${pcfiledir}/../..'
	git describe --always --exclude='*' --abbrev=40 --dirty > $(release)/COMMIT 2> /dev/null || echo unknown > $(release)/COMMIT
	cd $(release) && find * -type f | LC_ALL=C sort | xargs sha256sum > ../SHA256SUMS && mv ../SHA256SUMS .
	tar --sort=name --format=ustar --owner=0 --group=0 --numeric-owner --mode=u=rwX,go=rX --mtime=@$(SOURCE_DATE_EPOCH) \
		-C target -c sif-$(VERSION) | gzip -9n > $(release).tar.gz
	cd target && sha256sum sif-$(VERSION).tar.gz

check:
	./test

clean:
	rm -rf target */target compare/*/target crates/*/out
