#!/bin/sh
# Shows that sigrok.sh can fail: it gets recordings or answers with one fault each and
# must notice every fault in every recording it is given.
# usage: sigrok_faults.sh [TOOL]          TOOL as in sigrok.sh
# Called by sigrok.sh with --vcd FILE SCRIPT it is the tool with the fault $FAULT.
set -eu

NAMES="mosi-bit miso-bit word-dropped words-swapped phase polarity size frames answer"
SIZES="4 9 16"

here=$(cd "$(dirname "$0")" && pwd)

# One bit of a wire of device 0, from one clock edge to the next but one, is changed.
change_bit() { # WIRE FILE
    awk -v wire="$1" '
        function show() {
            now = edges == 3 || edges == 4 ? 1 - level : level
            if (now != shown) print now data
            shown = now
        }
        $1 == "$var" && $5 == wire "0" { data = $4 }
        $1 == "$var" && $5 == "clk0" { clk = $4 }
        /^#/ { if (started++) show() }
        started && /^[01]/ && substr($0, 2) == data { level = substr($0, 1, 1); next }
        started && /^[01]/ && substr($0, 2) == clk && begun++ { edges++ }
        { print }' "$2"
}

# FSS of device 0 never rises again.
join_frames() {
    awk '
        $1 == "$var" && $5 == "fss0" { fss = $4 }
        $0 == "0" fss { fallen = 1 }
        fallen && $0 == "1" fss { next }
        { print }' "$1"
}

# The script without its second word, with two words swapped, or with another CR0.
spoil_script() { # SCRIPT
    case $FAULT in
        word-dropped) awk '/^w 0 8 / && ++words == 2 { next } { print }' "$1" ;;
        words-swapped)
            awk '/^w 0 8 / && ++words == 2 { kept = $0; next }
                { print }
                words == 3 && kept { print kept; kept = "" }' "$1"
            ;;
        phase) change_cr0 128 "$1" ;;
        polarity) change_cr0 64 "$1" ;;
        size) change_cr0 1 "$1" ;;
    esac
}

# Inverts one bit of CR0 in both devices.
change_cr0() { # BIT SCRIPT
    while read -r command device offset value; do
        if [ "$command $offset" = "w 0" ]; then
            value=$(printf '%x' $((0x$value ^ $1)))
        fi
        echo "$command $device $offset $value"
    done < "$2"
}

spoiled_tool() { # FILE SCRIPT
    "$PL022_TOOL" --vcd "$1" "$2" > "$1.answers"
    case $FAULT in
        mosi-bit) change_bit txd "$1" > "$1.spoiled" ;;
        miso-bit) change_bit rxd "$1" > "$1.spoiled" ;;
        frames) join_frames "$1" > "$1.spoiled" ;;
        answer) awk '/^0 / && !done { sub(/.$/, "g"); done = 1 } { print }' "$1.answers" ;;
        *)
            spoil_script "$2" > "$1.script"
            "$PL022_TOOL" --vcd "$1.spoiled" "$1.script" > /dev/null
            ;;
    esac
    # But for the one fault in them the answers are true, so sigrok has to notice.
    if [ "$FAULT" != answer ]; then
        mv "$1.spoiled" "$1"
        cat "$1.answers"
    fi
}

if [ "${1:-}" = --vcd ]; then
    spoiled_tool "$2" "$3"
    exit
fi

case ${BUILD:=target} in
    /*) ;;
    *) BUILD=$(dirname "$here")/$BUILD ;;
esac
PL022_TOOL=${1:-$BUILD/pl022}
export PL022_TOOL

# Runs the test with a tool; its last line must end as given.
expect() { # NAME TOOL STATUS END
    status=0
    # shellcheck disable=SC2086 # a list of names
    lines=$("$here/sigrok.sh" "$2" $cases) || status=$?
    last=$(echo "$lines" | tail -n 1)
    echo "$1: ${last#sigrok: }"
    case $status$last in
        "$3"*", $4") ;;
        *) bad=1 ;;
    esac
}

cases=
count=0
for setting in 0-0 0-1 1-0 1-1; do
    for size in $SIZES; do
        cases="$cases pair-$setting-$size"
        count=$((count + 1))
    done
done
bad=0
expect "no fault" "$PL022_TOOL" 0 "no difference"
for FAULT in $NAMES; do
    export FAULT
    expect "$FAULT" "$here/sigrok_faults.sh" 1 "$count recordings DIFFER"
done
if [ "$bad" -ne 0 ]; then
    echo "sigrok_faults: not as it should be"
    exit 1
fi
echo "sigrok_faults: every fault was noticed in all $count recordings"
