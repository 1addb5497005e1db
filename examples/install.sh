#!/bin/sh
# Installs the library into an empty folder and builds a program with what pkg-config says
# of it: in C and in C++, with the archive and with the shared object. Runs each.
# PL022_ARCHIVE and BUILD are those of test.sh.
set -eu

cd "$(dirname "$0")/.."
archive=${PL022_ARCHIVE:-target/staticlib/libpl022.a}
BUILD=${BUILD:-target}
if [ ! -f "$archive" ]; then
    echo "install: no archive $archive; make archive builds it" >&2
    exit 2
fi
for program in pkg-config gcc g++; do
    if ! compare/need.sh "$program" "$program"; then
        echo "install: SKIPPED, $program is not installed"
        exit 0
    fi
done

mkdir -p "$BUILD"
dir=$(mktemp -d "$BUILD/install.XXXXXX")
dir=$(cd "$dir" && pwd)
trap 'rm -rf "$dir"' EXIT
trap 'exit 1' HUP INT TERM

fail() {
    echo "install: $*" >&2
    exit 1
}

put() { # ARGUMENTS of make
    make -s BUILD="$dir/build" LIBRARY="$archive" "$@" install
}

# Lists what is in a folder.
list() {
    (cd "$1" && find . ! -type d | sort)
}

put PREFIX="$dir/usr" DESTDIR=
version=$(sed -n 's/^Version: //p' "$dir/usr/lib/pkgconfig/pl022.pc")
sort > "$dir/wanted" << END
./include/pl022.h
./lib/libpl022.a
./lib/libpl022.so
./lib/libpl022.so.${version%%.*}
./lib/libpl022.so.$version
./lib/pkgconfig/pl022.pc
END
list "$dir/usr" > "$dir/found"
cmp "$dir/wanted" "$dir/found" || fail "other files than wanted"
cmp include/pl022.h "$dir/usr/include/pl022.h"
cmp "$archive" "$dir/usr/lib/libpl022.a"

# A package is gathered elsewhere than where it will be.
put PREFIX=/usr DESTDIR="$dir/stage"
list "$dir/stage/usr" > "$dir/found"
cmp "$dir/wanted" "$dir/found" || fail "other files than wanted with DESTDIR"
grep -q '^prefix=/usr$' "$dir/stage/usr/lib/pkgconfig/pl022.pc" || fail "DESTDIR in pl022.pc"

# The shared object exports the calls of the header.
sed -n 's/^[a-z].* \(pl022_[a-z_]*\)(.*/\1/p' include/pl022.h | sort > "$dir/wanted"
nm -D --defined-only "$dir/usr/lib/libpl022.so" | sed 's/.* //' | sort > "$dir/found"
cmp "$dir/wanted" "$dir/found" || fail "other symbols than the calls"

# No other folder is searched.
PKG_CONFIG_LIBDIR=$dir/usr/lib/pkgconfig
export PKG_CONFIG_LIBDIR
pkg-config --exact-version="$version" pl022

cp examples/loopback.c "$dir/program.c"
cp examples/loopback.c "$dir/program.cc"

# The words that pkg-config gives are arguments, and so are those of the compiler.
# shellcheck disable=SC2046,SC2086
build() { # COMPILER SOURCE LINKING
    $1 -Wall -Wextra -Wpedantic -Wconversion -Wshadow -Werror $(pkg-config --cflags pl022) \
        -o "$dir/program" "$dir/$2" -Wl,-B$3 $(pkg-config --libs pl022) -Wl,-Bdynamic
}

# check COMPILER SOURCE LINKING NEEDED: as many of the libraries that it loads are this one.
check() {
    build "$1" "$2" "$3"
    needed=$(readelf -d "$dir/program" | grep -c "NEEDED.*libpl022.so.${version%%.*}\]" || true)
    [ "$needed" -eq "$4" ] || fail "$1, $3: loads $needed, not $4"
    said=$(LD_LIBRARY_PATH=$dir/usr/lib "$dir/program")
    [ "$said" = "19 cycles, A5 came back" ] || fail "$1, $3: $said"
}

check "gcc -std=c11" program.c static 0
check "gcc -std=c11" program.c dynamic 1
check "g++ -std=c++11" program.cc static 0
check "g++ -std=c++11" program.cc dynamic 1
echo "install: version $version, programs in C and C++ run with the archive and with the shared object"
