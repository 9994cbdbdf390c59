# make builds the static library, the shared library and the program of the command; make install and make uninstall put them
# under PREFIX and take them away; make help says so. For GNU make. What is installed, and why so: docs/DECISIONS.md, "Installing".

PREFIX = /usr/local
DESTDIR =
INSTALL = install
RT = rt
# What is built is for x86-64, also where make runs on another processor.
ifeq ($(origin CC),default)
CC = $(if $(filter x86_64,$(shell uname -m)),gcc,x86_64-linux-gnu-gcc)
endif

version := $(shell cat VERSION)
# While the first number is 0, the first two name what a program was linked with.
soname := libjambthrush.so.$(basename $(version))
so := libjambthrush.so.$(version)
prefix = $(abspath $(PREFIX))

archive := target/staticlib/libhost.a
program := target/bin/listing
shared := target/shared/$(so)
# What rt keeps in crates/*/out is no file of the crates.
crates := crates.txt $(shell find crates -regex 'crates/[^/]*/out' -prune -o -type f -print)

own_folders := libexec/jambthrush share/doc/jambthrush
folders := bin include lib/pkgconfig share/man/man1 $(own_folders)
files := bin/jambthrush include/jambthrush.h lib/libjambthrush.a lib/$(so) lib/$(soname) lib/libjambthrush.so \
    lib/pkgconfig/jambthrush.pc libexec/jambthrush/listing share/man/man1/jambthrush.1 share/doc/jambthrush/NOTICE

.PHONY: all install uninstall help prefix-is-plain
.DELETE_ON_ERROR:

all: $(archive) $(shared) $(program)

# rt proves what it builds: minutes, where nothing is proved yet. One after the other, as both prove the same crates.
has_rt = command -v $(RT) > /dev/null || \
    { echo 'make: $@ is missing or older than crates/, and rt, the command of the Rattle kit, is not there to build it' >&2; exit 1; }

$(archive): $(crates)
	@$(has_rt)
	RT='$(RT)' scripts/build-archive

$(program): $(crates) | $(archive)
	@$(has_rt)
	RT='$(RT)' scripts/build-listing

# The archive is position independent (-z text would refuse it otherwise), and shows no name but those of the calls.
$(shared): $(archive) Makefile
	@mkdir -p $(@D)
	$(CC) -shared -Wl,-soname,$(soname) -Wl,-z,text,-z,defs,-z,relro,-z,now $(LDFLAGS) \
	    -Wl,--whole-archive $(archive) -Wl,--no-whole-archive -o $@

# Through the environment any DESTDIR is one word to the shell.
install uninstall: export to = $(DESTDIR)$(prefix)
prefix-is-plain: export wanted = $(PREFIX)
prefix-is-plain: export absolute = $(prefix)

# pkg-config and those who use what it prints part words at blanks, and read other characters as their own.
prefix-is-plain:
	@LC_ALL=C; case $$wanted$$absolute in \
	'' | *[!A-Za-z0-9/._+@-]*) \
	    echo "make: PREFIX is '$$wanted': as a whole path it must be of letters, digits and / . _ + - @ alone" >&2; exit 1 ;; \
	esac

install: prefix-is-plain all
	@umask 022; for folder in $(folders); do mkdir -p "$$to/$$folder" || exit 1; done
	$(INSTALL) -m 644 include/jambthrush.h "$$to/include/jambthrush.h"
	$(INSTALL) -m 644 $(archive) "$$to/lib/libjambthrush.a"
	$(INSTALL) -m 644 $(shared) "$$to/lib/$(so)"
	ln -sf $(so) "$$to/lib/$(soname)"
	ln -sf $(soname) "$$to/lib/libjambthrush.so"
	sed -e 's|@PREFIX@|$(prefix)|' -e 's|@VERSION@|$(version)|' jambthrush.pc.in > "$$to/lib/pkgconfig/jambthrush.pc"
	chmod 644 "$$to/lib/pkgconfig/jambthrush.pc"
	$(INSTALL) -m 755 jambthrush "$$to/bin/jambthrush"
	$(INSTALL) -m 755 $(program) "$$to/libexec/jambthrush/listing"
	$(INSTALL) -m 644 man/jambthrush.1 "$$to/share/man/man1/jambthrush.1"
	$(INSTALL) -m 644 NOTICE "$$to/share/doc/jambthrush/NOTICE"

# What others have put beside these files stays, and so do the folders that are not ours alone.
uninstall: prefix-is-plain
	@for file in $(files); do rm -f "$$to/$$file" || exit 1; done
	@for folder in $(own_folders); do \
	    if [ -d "$$to/$$folder" ]; then rmdir --ignore-fail-on-non-empty "$$to/$$folder" || exit 1; fi; done

help:
	@echo 'make             prove and build the libraries and the command'
	@echo 'make install     .. and put them under PREFIX (/usr/local), with DESTDIR before it'
	@echo 'make uninstall   take away what make install has put there'
