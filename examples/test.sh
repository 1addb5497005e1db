#!/bin/sh
# Builds the C programs with sanitizers and tests them, then what make install puts down.
# usage: test.sh PROGRAM, which answers the tool's scripts as an independent second program does
#
#   PL022_ARCHIVE  the archive, which must be there; target/staticlib/libpl022.a if not set
#   BUILD          the folder for all that is built, target if not set
#
# Both count from the top folder.
set -eu

if [ $# -ne 1 ]; then
    echo "usage: test.sh PROGRAM" >&2
    exit 2
fi
second=$(cd "$(dirname "$1")" && pwd)/$(basename "$1")
cd "$(dirname "$0")/.."
archive=${PL022_ARCHIVE:-target/staticlib/libpl022.a}
built=${BUILD:-target}/examples
if [ ! -f "$archive" ]; then
    echo "examples: no archive $archive; make archive builds it" >&2
    exit 2
fi
mkdir -p "$built"

build() {
    cc -std=c11 -D_POSIX_C_SOURCE=200809L -Wall -Wextra -Wpedantic -Wconversion -Wshadow -Werror \
        -g -O1 -fsanitize=address,undefined -fno-sanitize-recover=all -Iinclude \
        -o "$built/$1" "$2"/*.c "$archive"
}

# The page shows the program as it is.
awk '/^```c$/ { on = 1; next } /^```$/ { on = 0 } on' README.md > "$built/readme.c"
cmp "$built/readme.c" examples/loopback.c
mkdir -p "$built/one"
cp examples/loopback.c "$built/one/"
build loopback "$built/one"
# 2b + 2 slots of one cycle, and the cycle in which the frame is over.
test "$("$built/loopback")" = "19 cycles, A5 came back"

# The board compares both ends of each wire with its messages.
build board examples/board
"$built/board" > "$built/board.out" || {
    cat "$built/board.out" >&2
    exit 1
}
echo "board: $(tail -n 1 "$built/board.out")"

build pl022 examples/tool
examples/tool/test.sh "$built/pl022" "$second"
examples/install.sh
