#!/bin/sh
# Installs into a temporary prefix, builds the C ledger against what was installed and nothing
# else, once with the archive and once with the shared library, runs both, the second also with a
# shared library of another version, and sees that uninstalling leaves no file.
#
#     tests/install.sh MAKEFILE LIBRARY      from the repository's root
set -eu
makefile=$1
library=$2
make=${MAKE:-make}
prefix=$(mktemp -d)
trap 'rm -rf "$prefix"' EXIT

run_make() {
    "$make" --no-print-directory -f "$makefile" "$1" PREFIX="$prefix" WEIGHTROSE_LIB="$library"
}

fail() {
    echo "install: $1" >&2
    exit 1
}

# A release that was there before, which ldconfig would take for the latest.
mkdir "$prefix/lib"
touch "$prefix/lib/libweightrose.so.0.99.0"
run_make install
test ! -e "$prefix/lib/libweightrose.so.0.99.0" || fail "another release's shared library is left"
cp tests/c/ledger.c "$prefix/ledger.c"

if command -v pkg-config >/dev/null; then
    export PKG_CONFIG_PATH="$prefix/lib/pkgconfig"
    cflags=$(pkg-config --cflags weightrose)
    archive=$(pkg-config --libs weightrose)
    shared=$(pkg-config --libs weightrose-shared)
    version=$(pkg-config --modversion weightrose)
    test -f "$prefix/lib/libweightrose.so.$version" || fail "pkg-config says $version, the library's name another version"
else
    cflags="-I$prefix/include"
    archive="$prefix/lib/libweightrose.a"
    shared="-L$prefix/lib -lweightrose"
fi
# The flags are lists of words.
# shellcheck disable=SC2086
(cd "$prefix" && ${CC:-cc} -std=c99 $cflags ledger.c $archive -o ledger \
    && ${CC:-cc} -std=c99 $cflags ledger.c $shared -o ledger-shared)
"$prefix/ledger" >"$prefix/ledger.out"
LD_LIBRARY_PATH="$prefix/lib" "$prefix/ledger-shared" >"$prefix/ledger-shared.out"
cmp "$prefix/ledger.out" "$prefix/ledger-shared.out"
readelf -d "$prefix/ledger" | grep -q weightrose && fail "the ledger of the archive needs the shared library"
readelf -d "$prefix/ledger-shared" | grep -q 'libweightrose\.so\.0' || fail "the shared library is not needed by its soname"

# The same entries under another version, as after a rollback: the ledger says so at its start.
mkdir "$prefix/other"
objcopy --redefine-sym weightrose_version=its_version "$prefix/lib/libweightrose.a" "$prefix/other/its.a"
printf 'unsigned long long weightrose_version(void);\nunsigned long long weightrose_version(void) { return 0x6000600000900; }\n' \
    >"$prefix/other/version.c"
${CC:-cc} -shared -fPIC "$prefix/other/version.c" -Wl,--whole-archive "$prefix/other/its.a" -Wl,--no-whole-archive \
    -o "$prefix/other/libweightrose.so.0"
if LD_LIBRARY_PATH="$prefix/other" "$prefix/ledger-shared" >/dev/null 2>"$prefix/other/said"; then
    fail "the ledger takes another library for its own"
fi
grep -q 'do not belong together' "$prefix/other/said" || fail "the ledger does not say that the library is another"
rm -r "$prefix/other" "$prefix/ledger" "$prefix/ledger-shared" "$prefix/ledger.out" "$prefix/ledger-shared.out" "$prefix/ledger.c"

run_make uninstall
left=$(find "$prefix" ! -type d)
test -z "$left" || fail "left behind: $left"
echo "install: the C ledger ran against the installed archive and against the shared library"
