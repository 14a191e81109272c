# The library from the outside. Included from the repository's root, or used by
# make -f tests/tests.mk TARGET there.
#
#     tests           all of the below but test-page, compare-long, compare-before and bench
#     tests-rust      the documents' cases and the slips, then the comparison with the second
#                     implementation
#     tests-c         the C ledger: as C99, as C++, under valgrind and the sanitizers, and against
#                     the shared library
#     tests-shared    that the shared library has the archive's functions, exports the header's and
#                     nothing else
#     tests-install   the C ledger against an installed library, archive and shared
#     tests-python    the Python package: books as CSV, refusals, the command, the page
#     test-page       the page in a real browser (needs chromium and poppler-utils)
#     compare-long    the comparison on a million inputs (LONG_INPUTS, SEED)
#     compare-before  the library against another build of it that has C-17, BEFORE_LIB=.., in place
#                     of the second implementation: every answer and every byte lent of the reports,
#                     the bills and the questions; those that differ in what C-18 changed alone are
#                     counted; BEFORE_FLAGS, such as '--without-version 2', are handed on
#     bench           times of the library and of the second implementation; with YARDSTICK_LIB=..,
#                     a static library that has peer_report, of that one too
#
# WEIGHTROSE_LIB is the static library under test. All that is made goes to target/tests.

TESTS_MAKEFILE := $(firstword $(MAKEFILE_LIST))
WEIGHTROSE_LIB ?= target/staticlib/libweightrose.a
TESTS_OUT := target/tests
YARDSTICK_LIB ?=
BEFORE_LIB ?=
BEFORE_FLAGS ?=
LONG_INPUTS ?= 1000000
SEED ?= 20230701

CARGO ?= cargo
CARGO_FLAGS := --offline --manifest-path tests/Cargo.toml --target-dir $(TESTS_OUT)
CARGO_ENV = WEIGHTROSE_LIB_DIR=$(dir $(abspath $(WEIGHTROSE_LIB)))

C_WARNINGS := -Wall -Wextra -Wpedantic -Werror
C_FLAGS := -O2 -g -Iinclude $(C_WARNINGS)
SANITIZE := -fsanitize=address,undefined -fno-sanitize-recover=all
LEDGER := tests/c/ledger.c
LEDGER_NEEDS := $(LEDGER) include/weightrose.h $(WEIGHTROSE_LIB)

PYTHON ?= python3

include tests/install.mk

.PHONY: tests tests-rust tests-c tests-shared tests-install tests-python test-page compare-long \
    compare-before bench

tests: tests-rust tests-c tests-shared tests-install tests-python

tests-rust: $(WEIGHTROSE_LIB) target/bin/desk
	$(CARGO_ENV) $(CARGO) test $(CARGO_FLAGS) --profile checked
	$(CARGO_ENV) $(CARGO) run $(CARGO_FLAGS) --profile checked --bin compare -- --seed $(SEED)

compare-long: $(WEIGHTROSE_LIB)
	$(CARGO_ENV) $(CARGO) run $(CARGO_FLAGS) --profile checked --bin compare -- \
	    --inputs $(LONG_INPUTS) --seed $(SEED)

# The other build's names are changed, so that both can be linked.
compare-before: $(WEIGHTROSE_LIB)
	@test -f '$(BEFORE_LIB)' || { echo 'compare-before: BEFORE_LIB= names no library' >&2; exit 2; }
	mkdir -p $(TESTS_OUT)
	objcopy --redefine-sym weightrose_report=peer_report \
	    --redefine-sym weightrose_convert=peer_convert \
	    --redefine-sym weightrose_bills=peer_bills \
	    --redefine-sym weightrose_headroom=peer_headroom \
	    --redefine-sym weightrose_add=peer_add \
	    --redefine-sym weightrose_remove=peer_remove \
	    --redefine-sym weightrose_version=peer_version \
	    --redefine-sym weightrose_published=peer_published $(BEFORE_LIB) $(TESTS_OUT)/libbefore.a
	$(CARGO_ENV) YARDSTICK_LIB=$(abspath $(TESTS_OUT)/libbefore.a) \
	    $(CARGO) run $(CARGO_FLAGS) --profile checked --bin compare -- \
	    --against yardstick --seed $(SEED) $(BEFORE_FLAGS)

bench: $(WEIGHTROSE_LIB)
	$(CARGO_ENV) YARDSTICK_LIB=$(abspath $(YARDSTICK_LIB)) \
	    $(CARGO) run $(CARGO_FLAGS) --release --bin bench

tests-c: $(TESTS_OUT)/ledger $(TESTS_OUT)/ledger-cxx $(TESTS_OUT)/ledger-sanitized \
    $(TESTS_OUT)/ledger-shared
	$(TESTS_OUT)/ledger
	$(TESTS_OUT)/ledger-cxx >/dev/null
	$(TESTS_OUT)/ledger-sanitized >/dev/null
	$(TESTS_OUT)/ledger-shared >/dev/null
	valgrind --quiet --error-exitcode=1 --leak-check=full $(TESTS_OUT)/ledger >/dev/null

$(TESTS_OUT)/ledger: $(LEDGER_NEEDS)
	mkdir -p $(TESTS_OUT)
	$(CC) -std=c99 $(C_FLAGS) $(LEDGER) $(WEIGHTROSE_LIB) -o $@

$(TESTS_OUT)/ledger-cxx: $(LEDGER_NEEDS)
	mkdir -p $(TESTS_OUT)
	$(CXX) -std=c++11 $(C_FLAGS) -x c++ $(LEDGER) -x none $(WEIGHTROSE_LIB) -o $@

$(TESTS_OUT)/ledger-sanitized: $(LEDGER_NEEDS)
	mkdir -p $(TESTS_OUT)
	$(CC) -std=c99 $(C_FLAGS) $(SANITIZE) $(LEDGER) $(WEIGHTROSE_LIB) -o $@

$(TESTS_OUT)/ledger-shared: $(LEDGER) include/weightrose.h $(SHARED_LIB)
	mkdir -p $(TESTS_OUT)
	$(CC) -std=c99 $(C_FLAGS) $(LEDGER) $(SHARED_LIB) -Wl,-rpath,$(abspath $(SHARED_OUT)) -o $@

tests-shared: $(SHARED_LIB)
	tests/shared.sh $(SHARED_LIB) $(WEIGHTROSE_LIB) include/weightrose.h

PYTHON_ENV = WEIGHTROSE_LIBRARY=$(abspath $(SHARED_LIB)) PYTHONPATH=$(abspath python)

tests-python: $(SHARED_LIB)
	$(PYTHON_ENV) $(PYTHON) -m unittest discover --start-directory tests/python --top-level-directory tests/python

test-page: $(SHARED_LIB)
	$(PYTHON_ENV):$(abspath tests/python) $(PYTHON) tests/page/browser.py

tests-install: $(WEIGHTROSE_LIB) $(SHARED_LIB)
	MAKE='$(MAKE)' tests/install.sh $(TESTS_MAKEFILE) $(abspath $(WEIGHTROSE_LIB))
