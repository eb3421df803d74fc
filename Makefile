# make             builds what is missing or older than a source: the library and the programs by `rt`, the man pages by Python 3
# make install     puts them, the header and lurmenize.pc below PREFIX; with DESTDIR, below DESTDIR and PREFIX, while lurmenize.pc names PREFIX alone
# make uninstall   removes what install put there, and leaves the folders
.POSIX:

PREFIX = /usr/local
DESTDIR =
BINDIR = $(PREFIX)/bin
LIBDIR = $(PREFIX)/lib
INCLUDEDIR = $(PREFIX)/include
MANDIR = $(PREFIX)/share/man
PKGCONFIGDIR = $(LIBDIR)/pkgconfig
INSTALL = install

LIBRARY = target/staticlib/liblurmenize.a
PROGRAMS = crates/mac_cmd/out/mac_cmd crates/monitor_cmd/out/monitor_cmd crates/segments_cmd/out/segments_cmd crates/text_cmd/out/text_cmd
PAGES = target/man
LIBRARY_PAGE = $(PAGES)/man3/lurmenize.3

all: $(LIBRARY) $(PROGRAMS) $(LIBRARY_PAGE)

# What has changed since $@ was built. Which crates it is made of is rt's to know, so that all are asked: a library that is older than its header must
# not be installed with it. What rt finds to be as it should be is touched, or it would be asked for again each time.
CHANGED = find crates.txt crates/*/src crates/*/specs crates/*/proofs -type f -newer $@

$(LIBRARY): FORCE
	@test -f $@ && test -z "$$($(CHANGED))" || tools/library $@

# `rt run` builds a program and runs it, here on an empty input, on which each of them prints nothing.
$(PROGRAMS): FORCE
	@test -f $@ && test -z "$$($(CHANGED))" || { (cd crates/$(@F) && rt run </dev/null) && touch $@; }

# All pages are made at once. Those of the functions are links to the library's.
$(LIBRARY_PAGE): include/lurmenize.h docs/LINKING.md docs/PROGRAMS.md tools/man_pages tools/c_header.py tools/roff.py
	tools/man_pages $(PAGES)

install: all
	for folder in "$(BINDIR)" "$(LIBDIR)" "$(INCLUDEDIR)" "$(PKGCONFIGDIR)" "$(MANDIR)/man1" "$(MANDIR)/man3"; do \
	    $(INSTALL) -d "$(DESTDIR)$$folder" || exit 1; \
	done
	$(INSTALL) -m 755 $(PROGRAMS) "$(DESTDIR)$(BINDIR)"
	$(INSTALL) -m 644 $(LIBRARY) "$(DESTDIR)$(LIBDIR)"
	$(INSTALL) -m 644 include/lurmenize.h "$(DESTDIR)$(INCLUDEDIR)"
	version=$$(sed -n 's/^#define LURM_VERSION_STRING "\(.*\)"$$/\1/p' include/lurmenize.h) && \
	sed -e 's|@PREFIX@|$(PREFIX)|' -e 's|@LIBDIR@|$(LIBDIR)|' -e 's|@INCLUDEDIR@|$(INCLUDEDIR)|' -e 's|=$(PREFIX)/|=$${prefix}/|' \
	    -e "s|@VERSION@|$$version|" lurmenize.pc.in >"$(DESTDIR)$(PKGCONFIGDIR)/lurmenize.pc"
	chmod 644 "$(DESTDIR)$(PKGCONFIGDIR)/lurmenize.pc"
	$(INSTALL) -m 644 $(PAGES)/man1/*.1 "$(DESTDIR)$(MANDIR)/man1"
	$(INSTALL) -m 644 $(LIBRARY_PAGE) "$(DESTDIR)$(MANDIR)/man3"
	for page in $(PAGES)/man3/lurm_*.3; do ln -sf lurmenize.3 "$(DESTDIR)$(MANDIR)/man3/$${page##*/}" || exit 1; done

uninstall: $(LIBRARY_PAGE)
	for program in $(PROGRAMS); do rm -f "$(DESTDIR)$(BINDIR)/$${program##*/}" || exit 1; done
	rm -f "$(DESTDIR)$(LIBDIR)/liblurmenize.a" "$(DESTDIR)$(INCLUDEDIR)/lurmenize.h" "$(DESTDIR)$(PKGCONFIGDIR)/lurmenize.pc"
	for page in $(PAGES)/man1/*.1 $(PAGES)/man3/*.3; do rm -f "$(DESTDIR)$(MANDIR)/$${page#$(PAGES)/}" || exit 1; done

# Nothing makes it, so that what needs it is always asked for.
FORCE:

.PHONY: all install uninstall FORCE
