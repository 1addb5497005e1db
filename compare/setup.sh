# Read by run.sh and speed.sh: goes to the top folder, finds the archive and exports
# the folders that cargo needs.

name=$(basename "$0" .sh)
if ! command -v cargo > /dev/null; then
    echo "$name: cargo is not in the path" >&2
    exit 2
fi

here=$(cd "$(dirname "$0")" && pwd)
cd "$here/.."
archive=${PL022_ARCHIVE:-target/staticlib/libpl022.a}
if [ ! -f "$archive" ]; then
    echo "$name: no archive $archive; make archive builds it" >&2
    exit 2
fi
PL022_ARCHIVE_DIR=$(cd "$(dirname "$archive")" && pwd)
CARGO_TARGET_DIR=${CARGO_TARGET_DIR:-$here/target}
export CARGO_TARGET_DIR PL022_ARCHIVE_DIR
