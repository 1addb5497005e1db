#!/bin/sh
# Lets sigrok's SPI decoder read recordings that the command-line tool makes with the
# proved library, and compares the words it finds with those that the scripts wrote
# and with the answers of DR. Every SPO, SPH and size; a master wired to a slave, the
# same with the slave's output off, and a master alone.
# usage: sigrok.sh [TOOL [CASE ...]]      CASE: say pair-0-1-8
#
# TOOL is pl022 in the folder BUILD if not given, and BUILD is target if not set; it counts
# from the top folder.
set -eu

SEED=22563

here=$(cd "$(dirname "$0")" && pwd)
case ${BUILD:=target} in
    /*) ;;
    *) BUILD=$(dirname "$here")/$BUILD ;;
esac
tool=${1:-$BUILD/pl022}
[ $# -eq 0 ] || shift
chosen=$*

if [ ! -x "$tool" ]; then
    echo "sigrok: no tool $tool" >&2
    exit 2
fi

if ! "$here/need.sh" sigrok-cli sigrok-cli; then
    echo "sigrok: SKIPPED, sigrok-cli is not installed"
    exit 0
fi

dir=$(mktemp -d)
trap 'rm -rf "$dir"' EXIT
trap 'exit 1' HUP INT TERM

# Says what differs; frames are parted by a stroke.
same() { # WHAT WANTED FOUND
    cmp -s "$2" "$3" && return
    echo "sigrok: $name: $1"
    echo "    wanted $(paste -s -d / "$2")"
    echo "    found  $(paste -s -d / "$3")"
    differ=1
}

# Answers of the tool, line by line; after a star anything may follow.
check_answers() {
    awk -v name="$name" '
        FNR == NR { wanted[FNR] = $0; lines = FNR; next }
        {
            star = index(wanted[FNR], "*")
            found = star ? substr($0, 1, star - 1) "*" : $0
            if (found != wanted[FNR]) {
                printf "sigrok: %s: command %d: wanted %s, found %s\n", name, FNR, wanted[FNR], found
                bad = 1
                exit
            }
        }
        END {
            if (!bad && FNR != lines) {
                printf "sigrok: %s: %d commands, %d answers\n", name, lines, FNR
                bad = 1
            }
            exit bad
        }' "$dir/$name.answers" "$dir/answers" || differ=1
}

# Some releases of sigrok put a wire's scope before its name, others do not.
flatten() {
    sed -e '/^$scope /d' -e '/^$upscope /d' "$dir/vcd" > "$dir/flat.vcd"
}

# What the decoder finds of one class, a line each, without leading zeros.
decode() { # PINS CLASS
    sigrok-cli -i "$dir/flat.vcd" -I vcd -A "spi=$2" -P \
        "spi:$1:cs_polarity=active-low:bitorder=msb-first:cpol=$spo:cpha=$sph:wordsize=$size" \
        < /dev/null > "$dir/decoded"
    sed -e 's/^spi-1: //' -e 's/^00*\([0-9A-F]\)/\1/' -e 's/ 00*\([0-9A-F]\)/ \1/g' \
        "$dir/decoded" > "$dir/$2"
}

# Words one by one, then the frames in which they stand, then complaints.
check_side() { # DEVICE PINS
    for wire in mosi miso; do
        wanted=$dir/$name.$wire
        [ "$wire" = mosi ] || wanted=$wanted$1
        tr ' ' '\n' < "$wanted" > "$dir/words"
        decode "$2" "$wire-data"
        same "words on $wire at device $1" "$dir/words" "$dir/$wire-data"
        decode "$2" "$wire-transfer"
        same "frames on $wire at device $1" "$wanted" "$dir/$wire-transfer"
    done
    decode "$2" warnings
    same "warnings at device $1" /dev/null "$dir/warnings"
}

check_case() {
    differ=0
    status=0
    "$tool" --vcd "$dir/vcd" "$dir/$name.script" < /dev/null > "$dir/answers" || status=$?
    if [ "$status" -ne 0 ]; then
        echo "sigrok: $name: the tool ends with status $status"
        differ=1
        return
    fi
    check_answers
    flatten
    check_side 0 clk=clk0:mosi=txd0:miso=rxd0:cs=fss0
    if [ "$kind" != alone ]; then
        check_side 1 clk=clk_in1:mosi=rxd1:miso=txd1:cs=fss_in1
    fi
}

is_chosen() {
    case " ${chosen:-$name} " in
        *" $name "*) return 0 ;;
    esac
    return 1
}

awk -v seed="$SEED" -v folder="$dir" -f "$here/sigrok.awk" > "$dir/cases"
recordings=0
bad=0
sent=0
received=0
while read -r kind spo sph size; do
    name=$kind-$spo-$sph-$size
    is_chosen || continue
    check_case
    echo "$spo-$sph-$size" >> "$dir/settings"
    recordings=$((recordings + 1))
    bad=$((bad + differ))
    sent=$((sent + $(wc -w < "$dir/$name.mosi")))
    received=$((received + $(wc -w < "$dir/$name.miso0")))
done < "$dir/cases"

if [ "$recordings" -eq 0 ]; then
    echo "sigrok: no such case" >&2
    exit 2
fi
settings=$(($(sort -u "$dir/settings" | wc -l)))
counts="$settings settings, $recordings recordings, $sent words sent, $received received"
if [ "$bad" -gt 0 ]; then
    echo "sigrok: $counts, $bad recordings DIFFER"
    exit 1
fi
echo "sigrok: $counts, no difference"
