#!/bin/sh
# Builds the fuzz test. Arguments: the program's path, then what else to link.
# PL022_ARCHIVE as in run.sh.
set -eu

cd "$(dirname "$0")/.."
archive=${PL022_ARCHIVE:-target/staticlib/libpl022.a}
program=$1
shift
if [ ! -f "$archive" ]; then
    echo "fuzz: no archive $archive; make archive builds it" >&2
    exit 2
fi

cc -std=c11 -D_POSIX_C_SOURCE=200809L -D_DEFAULT_SOURCE \
    -Wall -Wextra -Wpedantic -Wconversion -Wshadow -Werror \
    -g -O1 -fsanitize=address,undefined -fno-sanitize-recover=all -Iinclude \
    -o "$program" \
    fuzz/fuzz.c fuzz/arena.c fuzz/calls.c fuzz/draw.c fuzz/lost.c fuzz/promise.c \
    fuzz/promise_recording.c fuzz/promise_text.c fuzz/record.c fuzz/recording.c fuzz/relate.c \
    fuzz/report.c fuzz/session.c fuzz/session_recording.c fuzz/session_text.c fuzz/tally.c \
    "$@" "$archive"
