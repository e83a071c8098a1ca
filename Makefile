# The C library, for programs outside this repository. It needs GNU make, a C compiler and, where the proved archive is missing or older than crates/,
# the Rattle toolchain (rt), which takes some minutes the first time.
#
#   make                                   target/lib: libkivdrag.a, libkivdrag.so and kivdrag.pc
#   make install [PREFIX=/usr/local] [LIBDIR=PREFIX/lib] [INCLUDEDIR=PREFIX/include] [MANDIR=PREFIX/share/man] [DESTDIR=]
#   make uninstall                         with the same PREFIX and so on
#   make clean                             removes what `make` wrote to target/lib
#
# The tests are in the gate, .ci/run. After an install for the whole machine the loader finds the shared library once `ldconfig` has run.
PREFIX = /usr/local
LIBDIR = $(PREFIX)/lib
INCLUDEDIR = $(PREFIX)/include
MANDIR = $(PREFIX)/share/man
DESTDIR =

version := $(shell sed -n 's/^\#define KIVDRAG_VERSION "\(.*\)"$$/\1/p' include/kivdrag_switch.h)
# While the major version is 0, each minor one may change the interface, and so has a name of its own for the loader.
shared := libkivdrag.so.$(basename $(version))
proved := target/staticlib/libkivdrag_c.a
built := target/lib
made := $(addprefix $(built)/,libkivdrag.a $(shared) libkivdrag.so kivdrag.pc exports)
link := -shared -nostartfiles -Wl,-soname,$(shared) -Wl,--version-script=$(built)/exports -Wl,-z,defs -Wl,-z,relro -Wl,-z,now -Wl,-z,noexecstack

# quoted TEXT: one word for the shell, whatever is in it.
quoted = '$(subst ','\'',$1)'
# filled NAME,TEXT: what has sed put the text in the place of @NAME@.
filled = $(call quoted,s|@$1@|$(subst |,\|,$(subst &,\&,$(subst \,\\,$2)))|)
# in_prefix FOLDER: the folder as kivdrag.pc has it, which pkg-config can move with the prefix.
in_prefix = $(subst $(PREFIX)/,$${prefix}/,$1)
lib = $(call quoted,$(DESTDIR)$(LIBDIR))
include = $(call quoted,$(DESTDIR)$(INCLUDEDIR))
man = $(call quoted,$(DESTDIR)$(MANDIR)/man1)

.PHONY: all install uninstall clean absolute always
.DELETE_ON_ERROR:

all: $(made)

# What rt keeps in a crate's folder out/ is no source.
$(proved): crates.txt $(shell find crates -name out -prune -o -type f -print)
	@command -v rt >/dev/null || { echo "kivdrag: rt is not in PATH: install the Rattle toolchain, which proves and builds $@" >&2; exit 1; }
	tools/proved kivdrag_c
	@touch $@

$(built):
	@mkdir -p $@

$(built)/exports: Makefile | $(built)
	@echo '{ global: kivdrag_*; local: *; };' >$@

$(built)/libkivdrag.a: $(proved) | $(built)
	cp $< $@

$(built)/$(shared): $(proved) $(built)/exports Makefile include/kivdrag_switch.h
	@command -v $(firstword $(CC)) >/dev/null || { echo "kivdrag: no C compiler $(firstword $(CC)): install one, or name it with CC=" >&2; exit 1; }
	$(CC) $(LDFLAGS) $(link) -Wl,--whole-archive $(proved) -Wl,--no-whole-archive -o $@

$(built)/libkivdrag.so: $(built)/$(shared)
	ln -sf $(shared) $@

# Written each time, as it has the folders that this call of make was given.
$(built)/kivdrag.pc: always | $(built)
	@sed -e $(call filled,PREFIX,$(PREFIX)) -e $(call filled,LIBDIR,$(call in_prefix,$(LIBDIR))) \
	    -e $(call filled,INCLUDEDIR,$(call in_prefix,$(INCLUDEDIR))) -e $(call filled,VERSION,$(version)) kivdrag.pc.in >$@

absolute:
	@for folder in $(foreach name,PREFIX LIBDIR INCLUDEDIR MANDIR,$(call quoted,$($(name)))); do \
	    case $$folder in /*) ;; *) echo "kivdrag: PREFIX, LIBDIR, INCLUDEDIR and MANDIR must begin with /, and one is $$folder" >&2; exit 1 ;; esac; \
	done

install: absolute all docs/kivdrag.1
	install -d $(lib)/pkgconfig $(include) $(man)
	install -m 644 $(built)/libkivdrag.a $(lib)
	install -m 755 $(built)/$(shared) $(lib)
	ln -sf $(shared) $(lib)/libkivdrag.so
	install -m 644 $(built)/kivdrag.pc $(lib)/pkgconfig
	install -m 644 include/kivdrag.h include/kivdrag_switch.h $(include)
	install -m 644 docs/kivdrag.1 $(man)

uninstall: absolute
	rm -f $(lib)/libkivdrag.a $(lib)/$(shared) $(lib)/libkivdrag.so $(lib)/pkgconfig/kivdrag.pc
	rm -f $(include)/kivdrag.h $(include)/kivdrag_switch.h $(man)/kivdrag.1

clean:
	rm -f $(made)
	@rmdir $(built) 2>/dev/null || true
