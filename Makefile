# Installs what ships: nothing is proved and the Rattle kit isn't needed; cargo and a C compiler are.
#
#   make                                  builds the shared object, the command line and its man page
#   make install PREFIX=/usr/local        library, header, pkg-config file, command line, man page, completion; DESTDIR= for packagers
#   make uninstall PREFIX=/usr/local      removes them
PREFIX = /usr/local
DESTDIR =
ARCH := $(shell uname -m)
CC = cc
CARGO = cargo

version := $(shell cat VERSION)
major := $(firstword $(subst ., ,$(version)))
archive := lib/$(ARCH)/libaltuliscia.a
built := target/install
command := host/target/release/altuliscia
so := libaltuliscia.so
to := $(DESTDIR)$(PREFIX)
bash := share/bash-completion/completions/altuliscia
zsh := share/zsh/site-functions/_altuliscia

all: $(built)/$(so).$(version) $(built)/altuliscia.pc $(command) $(built)/altuliscia.1

$(built)/$(so).$(version): $(archive)
	mkdir -p $(built)
	$(CC) -shared -Wl,-soname,$(so).$(major) -o $@ -Wl,--whole-archive $(archive) -Wl,--no-whole-archive

# Written anew each time, since it names PREFIX.
$(built)/altuliscia.pc: FORCE
	mkdir -p $(built)
	sed -e 's|@PREFIX@|$(PREFIX)|' -e 's|@VERSION@|$(version)|' host/install/altuliscia.pc.in > $@

$(command): $(archive) host/altuliscia/build.rs $(wildcard host/altuliscia/src/*.rs host/command/src/*.rs host/*/Cargo.toml)
	cd host && $(CARGO) build --offline --release --target-dir target -p command
	touch $@

$(built)/altuliscia.1: $(command) host/command/man
	mkdir -p $(built)
	host/command/man $(command) > $@

install: all
	install -d $(to)/bin $(to)/include $(to)/lib/pkgconfig $(to)/share/man/man1 $(to)/$(dir $(bash)) $(to)/$(dir $(zsh))
	install -m 755 $(command) $(to)/bin/
	install -m 644 include/altuliscia.h $(to)/include/
	install -m 644 $(archive) $(to)/lib/
	install -m 755 $(built)/$(so).$(version) $(to)/lib/
	ln -sf $(so).$(version) $(to)/lib/$(so).$(major)
	ln -sf $(so).$(major) $(to)/lib/$(so)
	install -m 644 $(built)/altuliscia.pc $(to)/lib/pkgconfig/
	install -m 644 $(built)/altuliscia.1 $(to)/share/man/man1/
	install -m 644 host/command/completion.bash $(to)/$(bash)
	install -m 644 host/command/completion.zsh $(to)/$(zsh)

uninstall:
	rm -f $(to)/bin/altuliscia $(to)/include/altuliscia.h $(to)/lib/libaltuliscia.a $(to)/lib/$(so) $(to)/lib/$(so).$(major) \
	    $(to)/lib/$(so).$(version) $(to)/lib/pkgconfig/altuliscia.pc $(to)/share/man/man1/altuliscia.1 $(to)/$(bash) $(to)/$(zsh)

.PHONY: all install uninstall FORCE
FORCE:
