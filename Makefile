# The proved archive (by rt, whose log goes to out/prove.log), the shared object that is made of it, and the command (by cargo); their installation.
#
#   make                    all three
#   make check              the gate
#   make install            under PREFIX, within DESTDIR; `make uninstall` takes it away again

PREFIX = /usr/local
DESTDIR =
BINDIR = $(PREFIX)/bin
INCLUDEDIR = $(PREFIX)/include
LIBDIR = $(PREFIX)/lib
MANDIR = $(PREFIX)/share/man

VERSION := $(shell sed -n 's/^\#define SPOUTBASKET_VERSION "\(.*\)"/\1/p' include/spoutbasket.h)
# callers of one version of the interface run with any later object of it: the major version and, while that is 0, the minor one too
NUMBERS := $(subst ., ,$(VERSION))
INTERFACE := $(firstword $(NUMBERS))$(if $(filter 0,$(firstword $(NUMBERS))),.$(word 2,$(NUMBERS)))

ARCHIVE = crates/spoutbasket/out/libspoutbasket.a
SHARED = out/shared/libspoutbasket.so.$(VERSION)
COMMAND = rust/target/release/spoutbasket

.PHONY: all check install uninstall clean

all: $(ARCHIVE) $(SHARED) $(COMMAND)

$(ARCHIVE): crates.txt $(shell find crates -name out -prune -o \( -name '*.rt' -o -name '*.antt' \) -print)
	mkdir -p out
	(cd crates/spoutbasket && rt lib) > out/prove.log 2>&1 || { tail -n 20 out/prove.log; exit 1; }
	touch $@

$(SHARED): $(ARCHIVE)
	mkdir -p $(@D)
	$(CC) $(LDFLAGS) -shared -Wl,-soname,libspoutbasket.so.$(INTERFACE) -Wl,-z,defs -Wl,--whole-archive $(ARCHIVE) -Wl,--no-whole-archive -o $@

$(COMMAND): $(ARCHIVE) rust/Cargo.toml rust/build.rs $(shell find rust/src -name '*.rs')
	SPOUTBASKET_LIB_DIR=$(abspath $(dir $(ARCHIVE))) cargo build --release --offline --manifest-path rust/Cargo.toml --bin spoutbasket
	touch $@

check:
	.ci/run

define PKG_CONFIG_FILE
prefix=$(PREFIX)
includedir=$(INCLUDEDIR)
libdir=$(LIBDIR)

Name: spoutbasket
Description: Payslip sheets compiled into multiplication chains, their files, their check and their control figures
Version: $(VERSION)
Cflags: -I$${includedir}
Libs: -L$${libdir} -lspoutbasket
endef

install: export PKG_CONFIG_TEXT = $(PKG_CONFIG_FILE)
install: all
	install -d $(DESTDIR)$(BINDIR) $(DESTDIR)$(INCLUDEDIR) $(DESTDIR)$(LIBDIR)/pkgconfig $(DESTDIR)$(MANDIR)/man1
	install -m 755 $(COMMAND) $(DESTDIR)$(BINDIR)/spoutbasket
	install -m 644 include/spoutbasket.h $(DESTDIR)$(INCLUDEDIR)/spoutbasket.h
	install -m 644 $(ARCHIVE) $(DESTDIR)$(LIBDIR)/libspoutbasket.a
	install -m 755 $(SHARED) $(DESTDIR)$(LIBDIR)/libspoutbasket.so.$(VERSION)
	ln -sf libspoutbasket.so.$(VERSION) $(DESTDIR)$(LIBDIR)/libspoutbasket.so.$(INTERFACE)
	ln -sf libspoutbasket.so.$(INTERFACE) $(DESTDIR)$(LIBDIR)/libspoutbasket.so
	printf '%s\n' "$$PKG_CONFIG_TEXT" > $(DESTDIR)$(LIBDIR)/pkgconfig/spoutbasket.pc
	chmod 644 $(DESTDIR)$(LIBDIR)/pkgconfig/spoutbasket.pc
	install -m 644 docs/spoutbasket.1 $(DESTDIR)$(MANDIR)/man1/spoutbasket.1

uninstall:
	rm -f $(DESTDIR)$(BINDIR)/spoutbasket $(DESTDIR)$(INCLUDEDIR)/spoutbasket.h $(DESTDIR)$(MANDIR)/man1/spoutbasket.1
	rm -f $(DESTDIR)$(LIBDIR)/libspoutbasket.a $(DESTDIR)$(LIBDIR)/libspoutbasket.so $(DESTDIR)$(LIBDIR)/libspoutbasket.so.$(INTERFACE)
	rm -f $(DESTDIR)$(LIBDIR)/libspoutbasket.so.$(VERSION) $(DESTDIR)$(LIBDIR)/pkgconfig/spoutbasket.pc

clean:
	rm -rf out crates/*/out rust/target tests/target bench/target
