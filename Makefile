# make run    prove, build and show the main job: the pump loader's pair, judged and explained
# make test   the whole gate; its last line is that of rt ci
# make build  the programs that the tests run, each in crates/NAME/out/NAME
# make lib    crates/visnumar/out/libvisnumar.a, for C and Rust to link with include/visnumar.h
# make bench  the proved library beside plain C, as ratios (docs/BENCH.md)
# make soak   random inputs against the second program for SECONDS (60)
# make stored every stored block and expected file written anew, to read in git diff before it is committed
# make shares every crate proved from nothing, one after the other, and what each takes; refused where one takes more than 4 times what base takes
# make sweep  every small change of a definition that a reader believes, which a computed case has to refuse (half an hour or so)
.POSIX:
.PHONY: run test setup text build programs lib library bench soak stored shares sweep clean
SECONDS = 60

run: setup
	@tools/build report
	@echo
	bin/visnumar judge examples/pump-old.blk examples/pump-new.blk
	@echo
	bin/visnumar explain examples/pump-old.blk examples/pump-new.blk

test:
	@.ci/run

setup:
	@tools/setup

# What needs no build.
text:
	tests/contracts .
	tests/shares selftest
	tests/scripts.sh
	tests/stored.sh
	tests/sweep.py steps

build: setup
	tools/build report batch

# What users run, and the comparison with the second program. rt ci has built the programs; make build does it too.
programs: setup
	tests/picture.sh
	tests/command.sh
	tests/examples.sh
	tests/pages.py README.md docs/USING.md examples/*.md
	tests/second/cases.sh "bin/run-built batch"
	tests/second/compare.sh "bin/run-built batch" batch 20000
	tests/runs/play.sh "bin/run-built batch"

library: lib
	tests/c-example.sh
	tests/rust-page.sh
	tests/second/library.sh

lib: setup
	tools/build visnumar

bench: lib
	bench/run.sh

soak: setup
	tools/build batch
	tests/soak.sh $(SECONDS)

# A program that prints something else than its file stdout is what this is for; the rest of the check must hold.
stored: setup
	tools/build report batch analysis_cases reader_cases writer_cases
	tests/stored.sh rewrite

shares: setup
	rt all verdict --jobs 1 | tests/shares

sweep: setup
	tests/sweep.py

clean:
	rm -rf crates/*/out
