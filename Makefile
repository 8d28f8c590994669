# test     every proof and every test; the last line is 'N passed, 0 failed'
# demo     three melts on a fresh volume: the map before and after, the contents, fsck.exfat's verdict
# vectors  make the vectors anew and compare them with the stored ones
# lib      the static library and its header, into dist/
# tool     the host tool, tools/target/release/bittsalak
# readers  volumes after random calls, read by fsck.exfat, exfat-fuse, fls and icat, and by bittsalak cat
# oracle   compare the library with the original Rust: CALLS= SEED= KINDS= MODE= (see tests/oracle)
# model    compare the library with 01 and what has landed of 02, computed in plain Python: CALLS= SEED= (see tests/model)
# bench    what the calls cost, beside the original Rust and limits in C (docs/BENCHMARKS.md)
.PHONY: test demo vectors write-vectors lib tool readers oracle model bench
MAKEFLAGS += --no-print-directory

test:
	@bash tests/run

demo:
	@bash tests/demo

vectors:
	@bash tests/vectors-compare

# store the vectors anew, where the script's cases have changed
write-vectors:
	@python3 tests/vectors.py --sets > crates/vectors/stdin
	@python3 tests/vectors.py > crates/vectors/stdout

lib:
	@bash tests/lib

tool: lib
	@bash tests/tool-build

readers: lib
	@bash tests/readers

oracle: lib
	@bash tests/oracle

model: lib
	@bash tests/model

bench: lib
	@bash bench/run
	@bash bench/instructions
