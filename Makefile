# Packs the proved library for machines without the Rattle kit.
#
#   make dist   # NAME.tar.gz: header, archive, shared object, wheel, manual page, a page of the calls, and the page that
#               # shows envelopes (web/); its SHA-256
#
# It packs the archive that `rt lib`, or the merge gate, leaves in crates/sentry_c/out once all below
# it is proved, and no other: it has to be newer than each file of the crates, which a commit has.
VERSION = $(shell sed -n 's/^Version: //p' bindings/c/curdmesa.pc)
NAME = curdmesa-$(VERSION)-x86_64-linux
ARCHIVE = crates/sentry_c/out/libsentry_c.a
MODULE = crates/sentry_c/out/sentry_c.bc
BINDING = $(MAKE) LIB=../../$(ARCHIVE) -C bindings
REFUSE = { echo "dist: $(1)" >&2; exit 1; }

.PHONY: dist

dist:
	@test -f $(ARCHIVE) || $(call REFUSE,no $(ARCHIVE): \`rt lib\` in crates/sentry_c makes it)
	@test -z "$$(git status --porcelain)" || $(call REFUSE,not all is committed)
	@test -z "$$(find crates crates.txt -name out -prune -o -type f -newer $(ARCHIVE) -print)" || \
	    $(call REFUSE,$(ARCHIVE) is older than the crates: \`rt lib\` in crates/sentry_c makes it)
	@test -z "$$(find crates crates.txt $(ARCHIVE) -name out -prune -o -type f -newer $(MODULE) -print 2>&1)" || \
	    $(call REFUSE,no $(MODULE) of that archive: \`.ci/library\` makes both)
	$(BINDING)/python clean && $(BINDING)/c clean && rm -rf $(NAME)
	$(BINDING)/c install PREFIX= DESTDIR=$(CURDIR)/$(NAME)
	$(BINDING)/python wheel && mv bindings/python/curdmesa-*.whl $(NAME) && cp LICENSE $(NAME)
	python3 bindings/c/api.py > $(NAME)/API.md
	$(MAKE) -C web && cp web/out/curdmesa.html $(NAME)
	echo "Commit $$(git rev-parse HEAD), proved and built by $$(rt version)" > $(NAME)/BUILT
	cd $(NAME) && find . -type f ! -name SHA256SUMS | sort | xargs sha256sum > SHA256SUMS
	tar --sort=name --owner=0 --group=0 --mtime=@$$(git log -1 --format=%ct) -czf $(NAME).tar.gz $(NAME)
	sha256sum $(NAME).tar.gz > $(NAME).tar.gz.sha256 && rm -r $(NAME)
