# What a router team takes of this tree; `make help` lists the targets. Version and date stand in include/tjernfaug.h and CHANGELOG.md alone, and go from there to all that is made.
#   PREFIX    what it is installed below (/usr/local); bindir, includedir, libdir, mandir and docdir are there if they are not given
#   DESTDIR   a folder put before all of these, for who makes a package; nothing that is installed names it
#   TARGET    the processor that the installed library is for (x86-64), one of tools/archive's; regrun is for x86-64 alone and goes with that one
#   SOURCE_DATE_EPOCH   the time that all files of `make dist` have, in seconds since 1970; if it is not given, the last commit's, and where there is none, the version's date
SHELL := bash
.SHELLFLAGS := -euo pipefail -c
.DELETE_ON_ERROR:
.NOTPARALLEL:
.PHONY: all install uninstall dist check help

PREFIX = /usr/local
TARGET = x86-64
INSTALL = install
INSTALL_PROGRAM = $(INSTALL)
INSTALL_DATA = $(INSTALL) -m 644

bindir = $(PREFIX)/bin
includedir = $(PREFIX)/include
libdir = $(PREFIX)/lib
mandir = $(PREFIX)/share/man
docdir = $(PREFIX)/share/doc/tjernfaug

version := $(shell sed -n 's/^.define TJERNFAUG_VERSION_TEXT "\(.*\)"$$/\1/p' include/tjernfaug.h)
date := $(shell sed -n 's/^.. $(version), //p' CHANGELOG.md)
$(if $(date),,$(error CHANGELOG.md has no entry for $(version), which is the version of include/tjernfaug.h))

targets = x86-64 aarch64 riscv64 armv7
pages := README.md CHANGELOG.md $(sort $(wildcard docs/*.md docs/landings/*.md docs/pictures/*.svg))
examples := $(sort $(wildcard examples/*.txt examples/*.c examples/*.out))
# What README names beside these and needs no kit: the worked device, and the tools that replay examples, which want rustc, with what they are built from.
worked := tests/c/device.c $(addprefix tools/,answers.sh replay.sh cells requests scenario timeline) $(addprefix tests/rust/,requests.rs scenario.rs timeline.rs) \
    $(filter-out docs/src/tests.rs,$(sort $(wildcard docs/src/*.rs)))

sources := crates.txt $(shell find crates \( -name must-fail -o -path 'crates/*/out' \) -prune -o -type f -print)
library = build/archives/$(TARGET)/libfirmware.a
regrun = crates/regrun/out/regrun
program = $(if $(filter x86-64,$(TARGET)),$(bindir)/regrun $(mandir)/man1/regrun.1)
installed = $(includedir)/tjernfaug.h $(libdir)/libtjernfaug.a $(libdir)/pkgconfig/tjernfaug.pc $(program) $(addprefix $(docdir)/,$(pages) $(examples))
# Folders that are this package's, the inner ones first.
own = $(addprefix $(docdir),/docs/landings /docs/pictures /docs /examples) $(docdir)

# Folders below the prefix are named by it in the pkg-config file, so that another prefix moves them all.
below = $(patsubst $(PREFIX)/%,$${prefix}/%,$(1))
filled = sed 's|@VERSION@|$(version)|; s|@DATE@|$(date)|; s|@PREFIX@|$(PREFIX)|; s|@INCLUDEDIR@|$(call below,$(includedir))|; s|@LIBDIR@|$(call below,$(libdir))|'

all: $(library) $(regrun) ## proves and makes the library and regrun, which takes long the first time
	@echo "make: tjernfaug $(version): $^"

build/archives/%/libfirmware.a: $(sources) tools/archive tools/kit.sh
	tools/archive $*

$(regrun): $(sources)
	tools/program regrun
	touch $@

# In this tree the library has its crate's name, as the kit gives it. Among a system's libraries that would say nothing: there it has the name of its header and package, for -ltjernfaug.
install: all ## puts header, library, regrun and pages below DESTDIR and PREFIX
	$(INSTALL) -d $(sort $(dir $(addprefix $(DESTDIR),$(installed))))
	$(INSTALL_DATA) include/tjernfaug.h $(DESTDIR)$(includedir)/tjernfaug.h
	$(INSTALL_DATA) $(library) $(DESTDIR)$(libdir)/libtjernfaug.a
	$(filled) tools/tjernfaug.pc.in | $(INSTALL_DATA) /dev/stdin $(DESTDIR)$(libdir)/pkgconfig/tjernfaug.pc
ifneq ($(program),)
	$(INSTALL_PROGRAM) $(regrun) $(DESTDIR)$(bindir)/regrun
	$(filled) docs/regrun.1.in | $(INSTALL_DATA) /dev/stdin $(DESTDIR)$(mandir)/man1/regrun.1
endif
	@for file in $(pages) $(examples); do $(INSTALL_DATA) $$file $(DESTDIR)$(docdir)/$$file; done
	@echo "make: tjernfaug $(version): $(words $(installed)) files below $(DESTDIR)$(PREFIX)"

uninstall: ## takes away what install has put there, by the same variables
	@rm -f $(addprefix $(DESTDIR),$(installed))
	@for folder in $(addprefix $(DESTDIR),$(own)); do [ ! -d $$folder ] || rmdir --ignore-fail-on-non-empty $$folder; done
	@echo "make: $(words $(installed)) files are no longer below $(DESTDIR)$(PREFIX)"

libraries = $(targets:%=build/archives/%/libfirmware.a)
stage = build/dist/tjernfaug-$(version)
time = $(or $(SOURCE_DATE_EPOCH),$(shell git log -1 --format=%ct 2>/dev/null || date -u -d $(date) +%s))

# Names sorted, one time, no owner: the same sources and the same kit make the same octets.
dist: $(libraries) $(regrun) ## makes the archive that a router team takes, build/dist/tjernfaug-VERSION.tar.gz
	@rm -rf $(stage)
	@mkdir -p $(addprefix $(stage)/,bin $(addprefix lib/,$(targets)))
	@cp --parents include/tjernfaug.h $(pages) $(examples) $(worked) $(stage)
	@cp $(regrun) $(stage)/bin
	@for target in $(targets); do cp build/archives/$$target/libfirmware.a $(stage)/lib/$$target; done
	@$(filled) docs/regrun.1.in >$(stage)/docs/regrun.1
	@cd $(stage) && find . -type f ! -name SHA256SUMS -printf '%P\0' | LC_ALL=C sort -z | xargs -0 sha256sum >SHA256SUMS
	@tar -C build/dist --format=ustar --sort=name --mtime=@$(time) --owner=0 --group=0 --numeric-owner --mode=u=rwX,go=rX -c tjernfaug-$(version) | gzip -9n >$(stage).part
	@mv $(stage).part $(stage).tar.gz
	@rm -rf $(stage)
	@echo "make: tjernfaug $(version): $(stage).tar.gz"

check: ## runs the gate, .ci/run
	bash .ci/run

help: ## lists the targets
	@sed -n 's/^\([a-z]*\):.*## /make \1	/p' Makefile | expand -t 18
	@echo
	@sed -n '/^#   /s/^# *//p; /^SHELL/q' Makefile
