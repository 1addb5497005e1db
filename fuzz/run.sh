#!/bin/sh
# Builds the fuzz test of the C calls and runs it.
#
#   FUZZ_SECONDS   how long it runs, 20 if not set
#   FUZZ_SEED      the seed of all choices, 22 if not set
#   FUZZ_CASE      if set, only this case of the seed is run
#   PL022_ARCHIVE  the archive, which must be there; target/staticlib/libpl022.a if not set
#   BUILD          the folder for all that is built, target if not set
#
# The last two count from the top folder. Status 0: nothing failed and enough was reached.
set -eu

cd "$(dirname "$0")/.."
built=${BUILD:-target}/fuzz
mkdir -p "$built"
fuzz/build.sh "$built/fuzz"
exec "$built/fuzz" "${FUZZ_SEED:-22}" "${FUZZ_SECONDS:-20}" ${FUZZ_CASE:+"$FUZZ_CASE"}
