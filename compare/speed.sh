#!/bin/sh
# Measures the proved library and the second program at the same work, and a plain
# fill of the same output, a copy of the same text, or a comparison of the same recording,
# beside them. About a minute.
# usage: speed.sh [CYCLES]
# PL022_ARCHIVE and CARGO_TARGET_DIR as in run.sh.
set -eu

if [ $# -gt 1 ]; then
    echo "usage: speed.sh [CYCLES]" >&2
    exit 2
fi
. "$(dirname "$0")/setup.sh"

cargo build --quiet --offline --locked --profile speed --manifest-path "$here/Cargo.toml" \
    --features library --bin speed
"$CARGO_TARGET_DIR/speed/speed" "$@"
