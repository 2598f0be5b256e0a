# Builds, checks and installs the staff board kernel: the program, the archive for C and Rust, its header, a pkg-config file and the page about the format.
PREFIX ?= /usr/local
DESTDIR ?=
VERSION = 0.1.0

BIN = $(DESTDIR)$(PREFIX)/bin
INCLUDE = $(DESTDIR)$(PREFIX)/include
LIB = $(DESTDIR)$(PREFIX)/lib
DOC = $(DESTDIR)$(PREFIX)/share/doc/staff_board

.PHONY: build check install uninstall clean

# Proves the kernel, and builds the program and the archive.
build:
	tools/build

# The gate, then the tests in Rust, which build the program and the archive first.
check:
	.ci/run
	rust/check

# What `make build` built last.
install: target/bin/staff_board target/staticlib/libabi.a
	install -d $(BIN) $(INCLUDE) $(LIB)/pkgconfig $(DOC)
	install -m 755 target/bin/staff_board $(BIN)/staff_board
	install -m 644 include/staff_board.h $(INCLUDE)/staff_board.h
	install -m 644 target/staticlib/libabi.a $(LIB)/libstaff_board.a
	install -m 644 docs/FORMAT.md $(DOC)/FORMAT.md
	printf '%s\n' 'prefix=$(PREFIX)' 'Name: staff_board' 'Description: The staff board kernel' 'Version: $(VERSION)' \
	    'Cflags: -I$${prefix}/include' 'Libs: -L$${prefix}/lib -lstaff_board' >$(LIB)/pkgconfig/staff_board.pc

target/bin/staff_board target/staticlib/libabi.a:
	@echo 'run `make build` first'; exit 1

uninstall:
	rm -f $(BIN)/staff_board $(INCLUDE)/staff_board.h $(LIB)/libstaff_board.a $(LIB)/pkgconfig/staff_board.pc $(DOC)/FORMAT.md

# What the toolchain keeps of the proofs lies in out/ of each crate.
clean:
	rm -rf target rust/target crates/*/out
