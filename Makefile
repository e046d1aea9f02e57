# make          the archive for C and C++ callers, with its proofs, and the C examples
# make rust     the Rust wrappers and their example; needs cargo
# make clean    removes what the two built, and leaves the proofs that were done
# All below target/.
PROVED = target/proved
ARCHIVE = target/staticlib/libkifsang.a
HARMLIST = target/bin/harmlist
EXAMPLES = target/examples/verdicts target/examples/report target/examples/three_seconds target/examples/panel
CFLAGS = -std=c99 -O2 -Wall -Wextra -pedantic

all: $(EXAMPLES)

# What is said of the archive's numbers is proved first; worked_numbers rests on exported_accuracy and on
# the exporting crates. The file is as old as the beginning, so that an edit while the proofs run is not
# missed.
$(PROVED): crates.txt $(shell find crates -mindepth 2 -name out -prune -o '(' -type d -o -name '*.rt' -o -name '*.antt' ')' -print)
	@echo "Proving what was not proved before; all of it takes some minutes."
	@mkdir -p $(@D) && touch $@.begun
	for crate in accuracy worked_numbers; do (cd crates/$$crate && rt check) && echo "$$crate proved" || exit 1; done
	@mv $@.begun $@

# The archive's own functions are proved as it is written.
$(ARCHIVE): $(PROVED)
	@mkdir -p $(@D)
	cd crates/kifsang && rt lib
	cp crates/kifsang/out/libkifsang.a $@

# rt builds a program as it runs it.
$(HARMLIST): $(PROVED)
	@mkdir -p $(@D)
	cd crates/harmlist && rt run < stdin > /dev/null
	cp crates/harmlist/out/harmlist $@

target/examples/%: examples/c/%.c examples/c/verdict_word.h include/kifsang.h $(ARCHIVE)
	@mkdir -p $(@D)
	$(CC) $(CFLAGS) -Iinclude -o $@ $< $(ARCHIVE) -lm

rust: $(ARCHIVE)
	CARGO_TARGET_DIR=target/cargo cargo build --quiet --release --offline --examples --manifest-path bindings/rust/Cargo.toml

clean:
	rm -rf $(PROVED) target/staticlib target/bin target/examples target/cargo

.PHONY: all rust clean
.DELETE_ON_ERROR:
