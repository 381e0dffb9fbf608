# `make help` lists what there is; plain `make` is `make run`.
EXAMPLE = reversed_inside
PREFIX = /usr/local
DESTDIR =
$(if $(filter /%,$(PREFIX)),,$(error PREFIX is the full path of a folder, not '$(PREFIX)'))

TO = $(DESTDIR)$(PREFIX)
VERSION = $(shell sed -n 's/^\#define OMH_VERSION "\(.*\)"/\1/p' host/omh.h)
FILL = sed 's|@PREFIX@|$(PREFIX)|; s|@VERSION@|$(VERSION)|'
INSTALLED = include/omh.h lib/libomh.a lib/pkgconfig/omh.pc bin/bench bin/omh-listing libexec/omh/listing libexec/omh/run \
	share/man/man1/bench.1 share/man/man1/omh-listing.1

.PHONY: run test host bench install uninstall clean help

run: examples/$(EXAMPLE).omx ## lists the outcome of an example; EXAMPLE=NAME takes examples/NAME.omx
	@tools/program --build listing
	@echo 'the text of $<: card, status, answer'
	@tools/run target/bin/listing <$<

test: ## runs the gate, .ci/run
	.ci/run

host: ## builds the archive for C and Rust, and the bench host, host/build/bench
	tools/archive
	flock host $(MAKE) -C host

bench: ## measures the library beside C in two forms
	tools/archive
	$(MAKE) -C host/speed

install: host ## installs header, archive, commands and man pages below PREFIX, /usr/local if not given
	tools/program --build listing
	install -D -m 644 host/omh.h '$(TO)/include/omh.h'
	install -D -m 644 target/staticlib/libomh.a '$(TO)/lib/libomh.a'
	install -D -m 755 host/build/bench '$(TO)/bin/bench'
	install -D -m 755 target/bin/listing '$(TO)/libexec/omh/listing'
	install -D -m 755 tools/run '$(TO)/libexec/omh/run'
	$(FILL) install/omh-listing.in | install -D -m 755 /dev/stdin '$(TO)/bin/omh-listing'
	$(FILL) install/omh.pc.in | install -D -m 644 /dev/stdin '$(TO)/lib/pkgconfig/omh.pc'
	$(FILL) install/bench.1.in | install -D -m 644 /dev/stdin '$(TO)/share/man/man1/bench.1'
	$(FILL) install/omh-listing.1.in | install -D -m 644 /dev/stdin '$(TO)/share/man/man1/omh-listing.1'

uninstall: ## removes what install wrote below PREFIX
	rm -f $(INSTALLED:%='$(TO)/%')
	@! [ -d '$(TO)/libexec/omh' ] || rmdir --ignore-fail-on-non-empty '$(TO)/libexec/omh'

clean: ## removes all that was proved and built here
	rm -rf target host/build second/target crates/*/out

help: ## prints this list
	@sed -n 's/^\([a-z]*\):.*## /\1	/p' Makefile | expand -t 12
