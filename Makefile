# make              builds the library, the command line, its manual pages and completions
# make install      and installs them below PREFIX, in the tree DESTDIR where that is given
# make uninstall    removes what install put there
# make check        is the gate, .ci/run
#
# What is proved is built by ./rekwonuda, which builds again only what changed.

PREFIX = /usr/local
DESTDIR =
PYTHON = /usr/bin/python3
python := $(shell $(PYTHON) -c 'import sys; print("python%d.%d" % sys.version_info[:2])')
# Debian's Python looks for packages there, where PREFIX is /usr/local.
PYTHONDIR = $(PREFIX)/lib/$(python)/dist-packages
DOCDIR = $(PREFIX)/share/doc/rekwonuda
MANDIR = $(PREFIX)/share/man/man1
BASHDIR = $(PREFIX)/share/bash-completion/completions
ZSHDIR = $(PREFIX)/share/zsh/site-functions
FISHDIR = $(PREFIX)/share/fish/vendor_completions.d

# On an Arm machine all is built for x86-64, as host/x86-64 says.
compiler := $(shell . host/x86-64; echo $${CC:-gcc})
archiver := $(shell . host/x86-64; echo $${AR:-ar})
stripper := $(shell . host/x86-64; echo $${STRIP:-strip})
program := target/host/$(shell . host/x86-64; echo $${CARGO_BUILD_TARGET:+$$CARGO_BUILD_TARGET/})release/rekwonuda
version := $(shell sed -n 's/^\#define RKW_VERSION_TEXT "\(.*\)"/\1/p' include/rekwonuda.h)
archive = target/staticlib/librkw.a
package := $(shell cd host/python && find rekwonuda -name '*.py' -o -name py.typed)

.PHONY: all proved install uninstall check
all: target/lib/librkw.a target/lib/librkw.so.0 target/share/man/rekwonuda.1 target/share/completions/fish

proved:
	@./rekwonuda --version > /dev/null

# With a command, though it does nothing, what stands on these is made again only where they are newer.
$(archive) $(program): proved
	@:

target/lib/words.o: host/c/words.c include/rekwonuda.h
	@mkdir -p $(@D)
	$(compiler) -std=c11 -O2 -fPIC -Wall -Wextra -Werror -Iinclude -c $< -o $@

target/lib/librkw.a: $(archive) target/lib/words.o
	cp $(archive) $@.new
	$(archiver) rs $@.new target/lib/words.o
	mv $@.new $@

target/lib/librkw.so.0: target/lib/librkw.a host/c/rkw.map
	$(compiler) -shared -Wl,-soname,librkw.so.0 -Wl,--version-script=host/c/rkw.map -Wl,-z,defs \
	    -Wl,--whole-archive $< -Wl,--no-whole-archive -o $@

target/share/man/rekwonuda.1: $(program) host/man/pages
	host/setup
	host/man/pages $(program) $(@D)

target/share/completions/fish: $(program)
	mkdir -p $(@D)
	for shell in bash zsh fish; do $(program) completions $$shell > $(@D)/$$shell || exit 1; done

install: all
	install -d $(addprefix $(DESTDIR),$(PREFIX)/bin $(PREFIX)/include $(PREFIX)/lib/pkgconfig)
	install -s --strip-program=$(stripper) $(program) $(DESTDIR)$(PREFIX)/bin/rekwonuda
	install -m 644 include/rekwonuda.h $(DESTDIR)$(PREFIX)/include/
	install -m 644 target/lib/librkw.a target/lib/librkw.so.0 $(DESTDIR)$(PREFIX)/lib/
	ln -sf librkw.so.0 $(DESTDIR)$(PREFIX)/lib/librkw.so
	sed 's|@PREFIX@|$(PREFIX)|; s|@VERSION@|$(version)|' host/c/rkw.pc.in > $(DESTDIR)$(PREFIX)/lib/pkgconfig/rkw.pc
	install -d $(DESTDIR)$(MANDIR) && install -m 644 target/share/man/*.1 $(DESTDIR)$(MANDIR)/
	install -D -m 644 target/share/completions/bash $(DESTDIR)$(BASHDIR)/rekwonuda
	install -D -m 644 target/share/completions/zsh $(DESTDIR)$(ZSHDIR)/_rekwonuda
	install -D -m 644 target/share/completions/fish $(DESTDIR)$(FISHDIR)/rekwonuda.fish
	for file in $(package); do \
	    install -D -m 644 host/python/$$file $(DESTDIR)$(PYTHONDIR)/$$file || exit 1; \
	done
	install -D -m 644 README.md $(DESTDIR)$(DOCDIR)/README.md
	install -d $(DESTDIR)$(DOCDIR)/docs && install -m 644 docs/*.md docs/*.svg $(DESTDIR)$(DOCDIR)/docs/

uninstall:
	rm -f $(DESTDIR)$(PREFIX)/bin/rekwonuda $(DESTDIR)$(PREFIX)/include/rekwonuda.h
	rm -f $(addprefix $(DESTDIR)$(PREFIX)/lib/,librkw.a librkw.so.0 librkw.so pkgconfig/rkw.pc)
	rm -f $(DESTDIR)$(MANDIR)/rekwonuda.1 $(DESTDIR)$(MANDIR)/rekwonuda-*.1
	rm -f $(DESTDIR)$(BASHDIR)/rekwonuda $(DESTDIR)$(ZSHDIR)/_rekwonuda $(DESTDIR)$(FISHDIR)/rekwonuda.fish
	rm -rf $(DESTDIR)$(PYTHONDIR)/rekwonuda $(DESTDIR)$(DOCDIR)

check:
	.ci/run
