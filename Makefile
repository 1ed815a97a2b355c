# The two commands of README.md are `make example` and `make test`.

PREFIX ?= /usr/local
SECONDS ?= 50
SEED ?= 20011

.PHONY: example test bench compare corpus install

# The main job: proves and builds the program, and brings one query to its smallest form.
example:
	printf '\002\012\004\005\002\005\004' | tools/run reduce

# The gate: proofs, must-fail edits, programs, the example client, and the comparison with the second implementation.
test:
	tools/test

# The library beside a plain C implementation and libxml2.
bench:
	tools/archive
	bench/run

# The library beside the second implementation, for as long as one likes: make compare SEED=7 SECONDS=3600
compare:
	tools/archive
	cargo run --release --quiet --manifest-path reference/Cargo.toml --package archive -- --seed $(SEED) --seconds $(SECONDS)

# The corpus that crates/vectors goes through, and the line that it ends with. Without a change of the second implementation both stay as they are.
corpus:
	cargo run --release --quiet --manifest-path reference/Cargo.toml --bin corpus -- crates/vectors/stdin
	cargo run --release --quiet --manifest-path reference/Cargo.toml --bin corpus -- --line crates/vectors/stdin >crates/vectors/stdout

# The archive and its header.
install:
	tools/archive
	install -d $(DESTDIR)$(PREFIX)/lib $(DESTDIR)$(PREFIX)/include
	install -m 644 target/staticlib/libpathplus.a $(DESTDIR)$(PREFIX)/lib
	install -m 644 include/pathplus.h $(DESTDIR)$(PREFIX)/include
