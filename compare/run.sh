#!/bin/sh
# Tests the second program, then compares the proved library with it call by call.
# Ends with five lines of counts, of recordings judged, of lost words, of frames with SSE
# clear, of texts and of devices; any difference gives a status other than 0, and so do too few
# calls on devices, random texts, lost words or random recordings.
# usage: run.sh
#
#   PL022_ARCHIVE     the library, a file libpl022.a that must be there;
#                     target/staticlib/libpl022.a if not set
#   CARGO_TARGET_DIR  the folder for all that is built, compare/target if not set
#
# Both count from the top folder.
set -eu

SEED=225eed
ROUNDS=1000
SECONDS_AT_MOST=150
# More than twice what the cases make that leave nothing to chance.
CALLS_AT_LEAST=2000000
# All that the rounds make, in about a tenth of the time.
TEXTS_AT_LEAST=1000000
# More than three times what the cases lose that leave nothing to chance.
LOST_AT_LEAST=200000
# All that the rounds make.
JUDGED_AT_LEAST=100000

if [ $# -ne 0 ]; then
    echo "usage: run.sh" >&2
    exit 2
fi
. "$(dirname "$0")/setup.sh"

cargo test --quiet --offline --locked --release --manifest-path "$here/Cargo.toml"

cargo build --quiet --offline --locked --release --manifest-path "$here/Cargo.toml" \
    --features library --bin compare
compare=$CARGO_TARGET_DIR/release/compare

# The second program on the vectors, then the library beside it.
for vectors in ../shared/vectors-5 ../shared/vectors-7; do
    if [ ! -d "$vectors" ]; then
        echo "run: no folder $vectors, its vectors are skipped"
        continue
    fi
    "$here/vectors.sh" "$vectors"
    for script in "$vectors"/*.in; do
        "$compare" --replay < "$script" > "$CARGO_TARGET_DIR/replay" || {
            echo "run: the library differs on $(basename "$script")" >&2
            cat "$CARGO_TARGET_DIR/replay" >&2
            exit 1
        }
    done
done

# The outer limit is for a call that does not return.
status=0
timeout $((SECONDS_AT_MOST + 60)) "$compare" \
    --seed "$SEED" --rounds "$ROUNDS" --seconds "$SECONDS_AT_MOST" \
    --least "$CALLS_AT_LEAST" --least-texts "$TEXTS_AT_LEAST" \
    --least-lost "$LOST_AT_LEAST" --least-judged "$JUDGED_AT_LEAST" || status=$?
if [ "$status" -eq 124 ]; then
    echo "run: the comparison did not end; compare --trace FILE shows the call" >&2
fi
exit "$status"
