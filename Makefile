# make: the program without proofs, build/brokerd, in some minutes. make help tells the rest; docs/CONTRIBUTING.md leads through it.
PREFIX = /usr/local
DESTDIR =
# FAST=1 builds at -O3, UNPROVED=1 has install take what make and make library have built
FAST =
UNPROVED =
CRATE =
OUT = build/brokerd

TOOLCHAIN = $(dir $(realpath $(shell command -v rt)))..
TO = $(DESTDIR)$(PREFIX)
BUILD = python3 -B tools/unproved.py $(if $(FAST),--fast)
PROVED = crates/brokerd/out/brokerd
PROVED_ARCHIVE = crates/hobbydresser_c/out/libhobbydresser_c.a
# The archive that programs link: the library, and the toolchain's archive of its C library.
PROVED_WHOLE = crates/hobbydresser_c/out/libhobbydresser.a
# Where a shell looks for completions: its file, below PREFIX.
BASH = share/bash-completion/completions/brokerd
ZSH = share/zsh/site-functions/_brokerd
FISH = share/fish/vendor_completions.d/brokerd.fish
INSTALLED = $(if $(UNPROVED),build/brokerd,$(PROVED))
INSTALLED_ARCHIVE = $(if $(UNPROVED),build/libhobbydresser.a,$(PROVED_WHOLE))

program: needs
	@$(BUILD) brokerd $(OUT)

# the same for C
library: needs
	@$(BUILD) hobbydresser_c build/libhobbydresser.a

# an answer without a proof
quick: program
	@python3 -B tests/quick.py build/brokerd $(wildcard build/libhobbydresser.a)

# man pages of the program that make built, and of the library for C
man: program
	@python3 -B tools/man.py build/brokerd build/man

# all proofs and all tests
check:
	.ci/run

# one crate, with what it stands on: make prove CRATE=world
prove: needs
	@python3 -B tools/prove.py "$(CRATE)"

needs:
	@sh tools/needs.sh

help:
	@echo 'make                     builds build/brokerd, unproved (FAST=1: at -O3)'
	@echo 'make library             builds build/libhobbydresser.a, unproved'
	@echo 'make quick               tries build/brokerd, without a proof'
	@echo 'make check               proves and tries everything: .ci/run'
	@echo 'make man                 writes man pages into build/man'
	@echo 'make prove CRATE=NAME    proves a crate and what it stands on'
	@echo 'make install PREFIX=DIR  installs what is proved (UNPROVED=1: what make and make library have built)'
	@echo 'make uninstall, clean    take away what was installed, and build/'

installable:
	@[ -e $(INSTALLED) ] || { echo 'there is no $(INSTALLED): $(if $(UNPROVED),make builds it,make prove CRATE=brokerd proves and builds it$(,) and make install UNPROVED=1 takes what make builds)' >&2; exit 1; }
	@[ -e $(if $(UNPROVED),$(INSTALLED_ARCHIVE),$(PROVED_ARCHIVE)) ] || { echo 'there is no $(if $(UNPROVED),$(INSTALLED_ARCHIVE): make library builds it,$(PROVED_ARCHIVE): make prove CRATE=hobbydresser_c proves and builds it)' >&2; exit 1; }

$(PROVED_WHOLE): $(PROVED_ARCHIVE)
	printf 'create %s\naddlib %s\naddlib %s\nsave\nend\n' $@ $(PROVED_ARCHIVE) $(TOOLCHAIN)/c/liblibc_c.a | $(AR) -M

install: installable
	@[ -n "$(UNPROVED)" ] || $(MAKE) --no-print-directory $(PROVED_WHOLE)
	install -d $(TO)/include $(TO)/lib/pkgconfig $(TO)/lib/cmake/hobbydresser $(TO)/bin
	install -m 644 include/hobbydresser.h $(TO)/include
	install -m 644 $(INSTALLED_ARCHIVE) $(TO)/lib
	install -m 644 packaging/hobbydresser.pc $(TO)/lib/pkgconfig
	$(if $(UNPROVED),sed -i 's/A proved broker/An unproved build of a broker/' $(TO)/lib/pkgconfig/hobbydresser.pc)
	install -m 644 packaging/hobbydresser-config.cmake packaging/hobbydresser-config-version.cmake $(TO)/lib/cmake/hobbydresser
	install -m 755 $(INSTALLED) $(TO)/bin/brokerd
	python3 -B tools/man.py $(INSTALLED) $(TO)/share/man
	install -d $(dir $(TO)/$(BASH) $(TO)/$(ZSH) $(TO)/$(FISH))
	$(INSTALLED) completions bash > $(TO)/$(BASH)
	$(INSTALLED) completions zsh > $(TO)/$(ZSH)
	$(INSTALLED) completions fish > $(TO)/$(FISH)
	@[ -z "$(UNPROVED)" ] || echo 'what is installed is unproved'

uninstall:
	rm -f $(TO)/include/hobbydresser.h $(TO)/lib/libhobbydresser.a $(TO)/lib/pkgconfig/hobbydresser.pc $(TO)/bin/brokerd
	rm -rf $(TO)/lib/cmake/hobbydresser
	rm -f $(TO)/$(BASH) $(TO)/$(ZSH) $(TO)/$(FISH) $(TO)/share/man/man1/brokerd.1 $(TO)/share/man/man1/brokerd-*.1
	rm -f $(TO)/share/man/man3/hobbydresser.3 $(TO)/share/man/man3/hd_*.3

clean:
	rm -rf build

, := ,
.PHONY: program library quick man check prove needs help installable install uninstall clean

# the library of hsa.h's name: make runtime, make install-runtime
include runtime/runtime.mk
