# Nuvaskoe. `make` proves and builds the library, the programs and the command; README.md has the rest of the words.
# It needs the Rattle kit (rt), a C compiler, cargo and python3, and no network.

PREFIX ?= /usr/local
DESTDIR ?=
BUILT := target/staticlib/libnuvaskoe.a
COMMAND := target/bin/nuvaskoe
SOURCES := crates.txt $(shell find crates -name out -prune -o '(' -name '*.rt' -o -name '*.antt' ')' -print)
VERSION = $(shell sed -n 's/^version = "\(.*\)"/\1/p' rust/Cargo.toml)

.PHONY: all command test install bench compare boundary clean

# Everything proved, the programs and the command in target/bin, the library in target/staticlib.
all:
	rt all check
	bash tools/archive.sh
	bash tools/programs.sh
	$(MAKE) command

# The gate.
test:
	bash .ci/run

$(BUILT): $(SOURCES)
	bash tools/archive.sh

# The command for the people at the set, its manual page and completion; cargo knows whether it is up to date.
command: $(BUILT)
	cd rust && cargo build --release --offline --quiet --package nuvaskoe-command
	install -D rust/target/release/nuvaskoe $(COMMAND)
	$(COMMAND) help --manual > target/nuvaskoe.1
	$(COMMAND) help --completion > target/nuvaskoe.bash

install: command
	install -D $(COMMAND) "$(DESTDIR)$(PREFIX)/bin/nuvaskoe"
	install -D -m 644 target/nuvaskoe.1 "$(DESTDIR)$(PREFIX)/share/man/man1/nuvaskoe.1"
	install -D -m 644 target/nuvaskoe.bash "$(DESTDIR)$(PREFIX)/share/bash-completion/completions/nuvaskoe"
	install -d "$(DESTDIR)$(PREFIX)/include" "$(DESTDIR)$(PREFIX)/lib/pkgconfig" "$(DESTDIR)$(PREFIX)/share/doc/nuvaskoe/samples"
	install -m 644 include/nuvaskoe.h "$(DESTDIR)$(PREFIX)/include/nuvaskoe.h"
	install -m 644 $(BUILT) "$(DESTDIR)$(PREFIX)/lib/libnuvaskoe.a"
	sed 's|@PREFIX@|$(PREFIX)|; s|@VERSION@|$(VERSION)|' nuvaskoe.pc.in > "$(DESTDIR)$(PREFIX)/lib/pkgconfig/nuvaskoe.pc"
	install -m 644 README.md docs/PROMISES.md examples/report.c "$(DESTDIR)$(PREFIX)/share/doc/nuvaskoe"
	install -m 644 samples/* "$(DESTDIR)$(PREFIX)/share/doc/nuvaskoe/samples"

# Every call timed beside the independent implementation, and a million cases of every call compared with it.
bench: $(BUILT)
	cd rust && cargo run --release --offline --example bench

compare: $(BUILT)
	cd rust && cargo run --offline --example compare

# The header, the Rust declarations and the crate of the static library, made from the Rattle source.
boundary:
	python3 tools/boundary.py

clean:
	rm -rf target rust/target crates/*/out
