# The four commands of the README.
.PHONY: run cards pairs test

# Proves and builds the listing program, saying nothing unless that fails, and runs it on the bench pool.
run:
	@host/build listing
	@cd crates/listing/data && ../../../target/bin/listing <../stdin

# Prove all that stands in the archive of the card cutter, the card reader and the choice between two base callers, and build the
# programs that cut and show a card, and the one that chooses.
cards: programs = cut_card show_card
pairs: programs = read_pairs
cards pairs:
	@host/build capi
	@for program in $(programs); do \
	    gcc -std=c99 -O2 -Iinclude host/$$program.c target/staticlib/libcapi.a -o target/bin/$$program || exit 1; \
	done

# Proves everything, keeping what an earlier run here proved of the same files, and runs all tests.
test:
	@bash .ci/run
