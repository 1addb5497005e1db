#!/bin/sh
# Checks the second program against a folder of vectors: NN.in with NN.out.
# usage: vectors.sh FOLDER
set -u

folder=${1:?usage: vectors.sh FOLDER}
if [ ! -d "$folder" ]; then
    echo "vectors: no folder $folder, nothing checked"
    exit 0
fi

here=$(cd "$(dirname "$0")" && pwd)
cargo build --quiet --offline --locked --release --manifest-path "$here/Cargo.toml" --bin script || exit 1
script=${CARGO_TARGET_DIR:-$here/target}/release/script

good=0
bad=0
for input in "$folder"/*.in; do
    [ -e "$input" ] || continue
    expected=${input%.in}.out
    if "$script" < "$input" | cmp -s - "$expected"; then
        good=$((good + 1))
    else
        bad=$((bad + 1))
        echo "vectors: $(basename "$input") differs"
        "$script" < "$input" | diff - "$expected" | head -4
    fi
done

echo "vectors: $good agree, $bad differ"
[ "$bad" -eq 0 ]
