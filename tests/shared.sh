#!/bin/sh
# That a shared library is the archive and nothing else: it exports the functions that the header
# declares, has the archive's functions and no other, each of the same size, and takes nothing from
# outside but what the archive takes, which is C's memset alone.
#
#     tests/shared.sh SHARED ARCHIVE HEADER
set -eu
shared=$1
archive=$2
header=$3
out=$(mktemp -d)
trap 'rm -rf "$out"' EXIT

same() {
    if ! cmp -s "$out/$2" "$out/$3"; then
        echo "shared: $1:" >&2
        diff "$out/$2" "$out/$3" >&2 || true
        exit 1
    fi
}

# A declaration has its name at the start of a line, behind a line with its type alone.
sed -n '/^uint64_t$/{n;s/(.*//p;}' "$header" | sort >"$out/declared"
nm -D --defined-only "$shared" | sed -n 's/.* T \([^@]*\).*/\1/p' | sort >"$out/exported"
test -s "$out/declared"
same "the header's functions, and those that are exported" declared exported

nm -S --defined-only "$archive" | awk 'NF == 4 && $3 ~ /[tT]/ {print $4, $2}' | sort >"$out/archived"
nm -S --defined-only "$shared" | awk 'NF == 4 && $3 ~ /[tT]/ {print $4, $2}' | sort >"$out/linked"
test -s "$out/archived"
same "the archive's functions, and those of the shared library" archived linked

nm -u "$archive" | awk 'NF == 2 {print $2}' | sort >"$out/archive_takes"
nm -D -u "$shared" | awk '{sub("@.*", "", $2); print $2}' | sort >"$out/shared_takes"
same "what the archive takes from outside, and what the shared library takes" archive_takes shared_takes
if grep -vx memset "$out/archive_takes" >&2; then
    echo "shared: the archive takes these names from outside beside memset" >&2
    exit 1
fi

soname=$(basename "$shared")
readelf -d "$shared" >"$out/dynamic"
grep -q "SONAME.*\[$soname\]" "$out/dynamic" || { echo "shared: the soname is not $soname" >&2; exit 1; }
if grep NEEDED "$out/dynamic" | grep -qv '\[libc\.so'; then
    echo "shared: another library than C's is needed" >&2
    exit 1
fi
if readelf -lW "$shared" | grep -q 'GNU_STACK.*E '; then
    echo "shared: the stack is executable" >&2
    exit 1
fi
echo "shared: $(wc -l <"$out/exported") entries of $soname, the archive's $(wc -l <"$out/linked") functions and nothing else"
