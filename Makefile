# make demo            runs the desk on an example book under the published schedule
# make test            proves everything and runs every check; its last line is 'N passed, 0 failed'
# make library         target/staticlib/libweightrose.a
# make shared          target/shared/libweightrose.so.0
# make python          the shared library into the Python package, for 'pip install ./python'
# make install         both libraries, header and pkg-config files below PREFIX
# make test-page       the package's page in a real browser
# make compare-long    a million inputs against the second implementation
# make compare-before  the same inputs as the tests' against another build of the library, BEFORE_LIB=..
# make bench           times of the library, of the second implementation and of a yardstick
.PHONY: demo test library python clean

RT = rt

demo: target/demo
	@echo 'Published schedule; one ungraded name with two assets of 3,000,000.00, kinds 11 and 6.'
	@echo 'top tier exposure limit left excess'
	@target/bin/desk <crates/desk/stdin

target/demo: crates.txt $(wildcard crates/*/src/*.rt)
	@mkdir -p target
	@echo 'Proving the desk; this takes some minutes the first time.'
	@$(MAKE) --no-print-directory target/bin/desk >target/demo.log 2>&1 || { cat target/demo.log; exit 1; }
	@touch target/demo

# The proofs come first: 'rt ci' over every crate, its must-fail edits and the program. An edit that it calls bad fails too.
# What it leaves in crates/*/out is what the library and the program are built from for the tests; its last line is shown again.
test:
	@log=$$(mktemp) && { $(RT) ci 2>&1; echo $$? >$$log.status; } | tee $$log \
	    && test "$$(cat $$log.status)" = 0 && ! grep -Eq '^rt: ok.*, [0-9]+ bad' $$log \
	    && $(MAKE) --no-print-directory -j2 -Otarget tests && tail -n 1 $$log && rm -f $$log $$log.status

include tests/tests.mk

library: target/staticlib/libweightrose.a

# rt proves first what is not proved yet.
target/staticlib/libweightrose.a: crates.txt $(wildcard crates/*/src/*.rt)
	cd crates/weightrose && $(RT) lib
	mkdir -p target/staticlib
	cp crates/weightrose/out/libweightrose.a $@

target/bin/desk: crates.txt $(wildcard crates/*/src/*.rt)
	cd crates/desk && $(RT) run <stdin
	mkdir -p target/bin
	cp crates/desk/out/desk $@

python: python/weightrose/libweightrose.so

python/weightrose/libweightrose.so: $(SHARED_LIB)
	cp $< $@

clean:
	rm -rf target crates/*/out python/weightrose/libweightrose.so
