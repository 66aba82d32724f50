# Builds, tests and installs this project; `make help` says how. Each file is made anew when a source of it has changed.

PREFIX ?= /usr/local

COMMANDS = argon2-tool argon2-audit argon2-calibrate argon2-passwd
LEVELS = x86-64-v2 x86-64-v3 x86-64-v4
VERSION := $(shell cat VERSION)

# The level of this processor, for which a clone's own commands are.
HERE := $(shell build/processor)

.PHONY: all help test bench install uninstall libargon2 install-libargon2 uninstall-libargon2 npm c-file release clean
.DELETE_ON_ERROR:

all: $(COMMANDS)

help:
	@echo 'make               proves and builds the commands $(COMMANDS) in this folder, for this processor'
	@echo 'make argon2-tool   only this command, or another one by its name'
	@echo 'make test          proves each crate from nothing, tries the wrong bodies, and runs all tests'
	@echo 'make install       installs the commands for each level of x86-64, with their man pages and completion for bash'
	@echo 'make libargon2     builds the library for C in out/libargon2, for this processor'
	@echo 'make install-libargon2 installs that library beside the one of the system, with DROP_IN=yes in its place'
	@echo 'make uninstall, make uninstall-libargon2'
	@echo 'make npm           builds the package for npm in out/npm'
	@echo 'make c-file        makes the library for C as one file of C, for each system, in out/c-file'
	@echo 'make release       makes the files of a release in out/release (build/release --help says what it needs)'
	@echo 'make bench         times a hash beside other programs'
	@echo 'make clean         removes all that was made'
	@echo
	@echo 'PREFIX=/usr/local  the folder for install and uninstall. DESTDIR comes before it'
	@echo
	@echo 'It needs the Rattle kit, whose folder bin is on PATH, cc, binutils, flock and python3.'

# Each recipe that builds something begins with $(needs), and reports what is missing before it makes anything. So `make install`
# needs no Rattle kit if all is built.
needed = rt cc objcopy flock python3
missing = $(strip $(foreach command,$(needed),$(if $(shell command -v $(command)),,$(command))))
needs = $(if $(missing),$(error missing: $(missing). `make help` says what is needed, and README.md where the Rattle kit is from))

# The crate of a command, and what the command is made of: the sources and the specifications of that crate and of those that
# crates.txt names for it.
crate = $(if $(wildcard crates/argon2_$(1:argon2-%=%)_cli),argon2_$(1:argon2-%=%)_cli,argon2_$(1:argon2-%=%))
crates = $(1) $(shell sed -n 's/^$(1)://p' crates.txt)
files = $(wildcard $(foreach part,src src/* src/*/*,$(1)/$(part)/*.rt) $(1)/specs/*.antt)
sources = $(foreach it,$(call crates,$(call crate,$(1))),$(call files,crates/$(it)))

# An object for each level; a command of each folder is linked of them. (An object is made by `rt`, which proves what has changed.)
define rules
$(LEVELS:%=out/$(1).%.o): out/$(1).%.o: $(call sources,$(1)) crates.txt
	$$(needs)build/object $(call crate,$(1)) $$* $$@
$(1): out/$(1).$(HERE).o start/start.c
	build/link $$@ $$<
out/all/$(1): $(LEVELS:%=out/$(1).%.o) start/start.c
	build/link $$@ $$(filter %.o,$$^)
out/static/$(1): $(LEVELS:%=out/$(1).%.o) start/start.c
	build/link --mode static $$@ $$(filter %.o,$$^)
endef
$(foreach command,$(COMMANDS),$(eval $(call rules,$(command))))

bin = $(DESTDIR)$(PREFIX)/bin
man = $(DESTDIR)$(PREFIX)/share/man/man1
completions = $(DESTDIR)$(PREFIX)/share/bash-completion/completions

install: $(COMMANDS:%=out/all/%) $(COMMANDS:%=out/man/%.1)
	install -d "$(bin)" "$(man)" "$(completions)"
	for command in $(COMMANDS); do build/put 755 out/all/$$command "$(bin)/$$command" && \
	    build/put 644 out/man/$$command.1 "$(man)/$$command.1" && \
	    build/put 644 build/completion "$(completions)/$$command" || exit; done

uninstall:
	for command in $(COMMANDS); do rm -f "$(bin)/$$command" "$(man)/$$command.1" "$(completions)/$$command" || exit; done

out/man/%: man/% VERSION
	@mkdir -p $(@D)
	sed 's/@VERSION@/$(VERSION)/' $< >$@

# Beside the library of the system, or with DROP_IN=yes in its place.
drop_in = $(if $(DROP_IN),--drop-in)

libargon2:
	$(needs)build/libargon2 out/libargon2
install-libargon2:
	$(needs)build/install-libargon2 $(drop_in) --prefix "$(PREFIX)"
uninstall-libargon2:
	build/uninstall-libargon2 $(drop_in) --prefix "$(PREFIX)"
npm:
	$(needs)build/npm out/npm
c-file:
	$(needs)build/c-file out/c-file
release:
	$(needs)build/release out/release

test:
	tests/run
bench: argon2-tool
	bench/program

clean:
	rm -rf $(COMMANDS) out crates/*/out bindings/rust/target
