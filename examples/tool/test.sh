#!/bin/sh
# Tests the tool: test.sh TOOL [OTHER]
#
# OTHER is a program that reads the commands of a script on standard input and gives the
# same answers, with --text FILE the same text and with --lost the same lines of lost words;
# if it is given, both are compared as well. VECTORS in the environment may name folders, with
# blanks between them, of scripts NN.in with their answers NN.out.
set -eu
LC_ALL=C
export LC_ALL

if [ $# -lt 1 ] || [ $# -gt 2 ]; then
    echo "usage: test.sh TOOL [OTHER]" >&2
    exit 2
fi
tool=$1
other=${2-}
scripts=$(dirname "$0")/../scripts
case $tool in
/*) tool_path=$tool ;;
*) tool_path=$(pwd)/$tool ;;
esac
seed=22
fuzz_seconds=10

# A sanitizer's own status must not pass for one of the tool's.
ASAN_OPTIONS=${ASAN_OPTIONS:+$ASAN_OPTIONS:}exitcode=99
UBSAN_OPTIONS=${UBSAN_OPTIONS:+$UBSAN_OPTIONS:}exitcode=99
LSAN_OPTIONS=${LSAN_OPTIONS:+$LSAN_OPTIONS:}exitcode=99
export ASAN_OPTIONS UBSAN_OPTIONS LSAN_OPTIONS
unset COLUMNS

dir=${TMPDIR:-/tmp}/pl022-test.$$
(umask 077 && mkdir "$dir")
trap 'rm -rf "$dir"' EXIT
trap 'exit 1' HUP INT TERM

: >"$dir/vcd"
: >"$dir/text"

checks=0
failures=0

# check NAME COMMAND...: counts, and names what fails.
check() {
    name=$1
    shift
    checks=$((checks + 1))
    if ! "$@"; then
        failures=$((failures + 1))
        echo "FAIL: $name" >&2
    fi
}

same() { cmp -s "$1" "$2"; }
equal() { [ "$1" = "$2" ]; }

# run ARGUMENTS...: leaves status, $dir/out and $dir/err.
run() {
    status=0
    "$tool" "$@" >"$dir/out" 2>"$dir/err" || status=$?
}

# The commands alone, as OTHER wants them.
commands_of() {
    tr -d '\r' <"$1" | sed -e '/^[[:blank:]]*#/d' -e '/^[[:blank:]]*$/d'
}

# like_other NAME SCRIPT ANSWERS: the answers, the text of the master's cycles and the lost
# words. A text that cannot be written is an empty file, or none.
like_other() {
    [ -n "$other" ] || return 0
    commands_of "$2" >"$dir/commands"
    : >"$dir/other.text"
    "$other" --text "$dir/other.text" <"$dir/commands" >"$dir/other" 2>"$dir/err" || true
    check "$1 against the other program" same "$3" "$dir/other"
    run --text "$dir/text" "$2"
    check "$1: text against the other program" same "$dir/text" "$dir/other.text"
    "$other" --lost <"$dir/commands" >"$dir/other" 2>"$dir/err" || true
    run --lost "$2"
    check "$1: lost words against the other program" same "$dir/out" "$dir/other"
    compared=$((compared + 1))
}
compared=0

takes_text() { "$other" --text "$dir/other.text" </dev/null >"$dir/other" 2>&1; }
[ -z "$other" ] || check "the other program takes --text" takes_text
takes_lost() { "$other" --lost </dev/null >"$dir/other" 2>&1; }
[ -z "$other" ] || check "the other program takes --lost" takes_lost

# ---------------------------------------------------------------- decoders

# cycles_of_vcd FILE: a line for each cycle: output and input of device 0, then of 1.
cycles_of_vcd() {
    awk '
    function digit(n) { return substr("0123456789abcdef", n + 1, 1) }
    function line(d, a, b, c, e) {
        return digit(v[a d] + 2 * v[b d] + 4 * v[c d] + (e == "" ? 0 : 8 * v[e d]))
    }
    function cycle() {
        print line(0, "clk", "fss", "txd", "nsspoe"), \
              line(0, "clk_in", "fss_in", "rxd", ""), \
              line(1, "clk", "fss", "txd", "nsspoe"), \
              line(1, "clk_in", "fss_in", "rxd", "")
    }
    $1 == "$scope" { scope = $3; next }
    $1 == "$var" { wire[$4] = scope == "device" substr($5, length($5)) ? $5 : "lost"; next }
    /^#/ {
        next_time = substr($0, 2) + 0
        if (stamps++ > 0 && next_time <= time) print "time does not advance"
        for (; time < next_time; time++) cycle()
        next
    }
    /^[01]/ {
        if (!(substr($0, 2) in wire)) print "unknown wire"
        v[wire[substr($0, 2)]] = substr($0, 1, 1) + 0
    }' "$1"
}

# expected_cycles SCRIPT ANSWERS: the same from the commands and their answers.
expected_cycles() {
    commands_of "$1" | awk -v answers="$2" '
    # A released line reads LOW.
    function wired(output, n) {
        n = index("0123456789abcdef", output) - 1
        return n < 8 ? n : n % 4
    }
    function cycle() { print out[0], pin[0], out[1], pin[1] }
    function single(d, input, output, k) {
        for (k = 1; output != "-" && k <= length(output); k++) {
            pin[d] = substr(input, k, 1)
            out[d] = last[d] = substr(output, k, 1)
            cycle()
        }
    }
    function pair(first, second, k) {
        for (k = 1; first != "-" && k <= length(first); k++) {
            pin[0] = wired(last[1])
            pin[1] = wired(last[0])
            out[0] = last[0] = substr(first, k, 1)
            out[1] = last[1] = substr(second, k, 1)
            cycle()
        }
    }
    BEGIN { out[0] = out[1] = last[0] = last[1] = "a"; pin[0] = pin[1] = 0 }
    { getline answer <answers; split(answer, a, " ") }
    $1 == "reset" && a[1] == 0 { last[$2] = "a" }
    $1 == "run" && a[1] == 0 { single($2, tolower($3), a[2]) }
    $1 == "idle" && a[1] == 0 { single($2, tolower($3), a[3]) }
    $1 == "pair" { pair(a[1], a[2]) }'
}

# rows_of_diagram FILE: device, output and input (- if not drawn) of each cycle drawn.
# rows_of_diagram FILE text: the same of a text, with the device - and the lines of times.
rows_of_diagram() {
    awk -v text="${2-}" '
    function level(name, k, edge, flat, now) {
        edge = substr(row[name], 2 * k - 1, 1)
        flat = substr(row[name], 2 * k, 1)
        now = index("_.", flat) ? 0 : index("-" quote, flat) ? 1 : "no level"
        if (edge != flat && edge != (now ? "/" : "\\")) print "wrong edge"
        if ((device name) in before && (before[device name] != now) != (edge != flat))
            print "edge does not fit the level before"
        if (text && !((device name) in before) && edge != flat) print "edge in the first cycle"
        if (index("." quote, flat) && (name != "TXD" || substr(row["nSSPOE"], 2 * k, 1) != "-"))
            print "dots on a driven line"
        if (name == "TXD" && substr(row["nSSPOE"], 2 * k, 1) == "-" && !index("." quote, flat))
            print "no dots on a released line"
        before[device name] = now
        return now
    }
    BEGIN { quote = sprintf("%c", 39) }
    /^  time/ && text { print; next }
    /^  time/ { split("", before); next }
    /^  cycle/ { next }
    text ? /^  (CLK|FSS|TXD|nSSPOE) / : /^  [01] / {
        device = text ? "-" : substr($0, 3, 1)
        name = text ? substr($0, 3, 9) : substr($0, 5, 7)
        sub(/ +$/, "", name)
        row[name] = substr($0, 12)
        if (name != "nSSPOE") next
        for (k = 1; 2 * k <= length(row["nSSPOE"]); k++) {
            output = level("CLK", k) + 2 * level("FSS", k) + 4 * level("TXD", k) \
                + 8 * level("nSSPOE", k)
            input = "-"
            if ("RXD" in row) input = level("CLK in", k) + 2 * level("FSS in", k) + 4 * level("RXD", k)
            print device, substr("0123456789abcdef", output + 1, 1), input
        }
        split("", row)
        next
    }
    /^ / { print "unknown line" }' "$1"
}

# text_of_diagram FILE: the text that was drawn, a line for each diagram.
text_of_diagram() {
    rows_of_diagram "$1" text | awk '
    function end_line() {
        if (line == "") return
        print line
        if (length(line) != due) print "wrong number of cycles"
        line = ""
    }
    /^  time/ {
        end_line()
        due = $3
        if ($0 != "  time " (cycles + 0) ", " due (due == 1 ? " cycle" : " cycles")) print "wrong time"
        next
    }
    NF == 3 && $1 == "-" && $3 == "-" { line = line toupper($2); cycles++; next }
    { print }
    END { end_line() }'
}

# expected_digits SCRIPT ANSWERS: the digits of the text, from the commands and their
# answers; 13 if they are too many.
expected_digits() {
    commands_of "$1" | awk -v answers="$2" '
    function bit(d, weight) { return int(cr1[d] / weight) % 2 }
    function ran(d, output) {
        if (output == "-" || bit(d, 4)) return
        digits[d] = digits[d] output
        if (master == "" && bit(d, 2)) master = d
    }
    { getline answer <answers; split(answer, a, " ") }
    $1 == "reset" && a[1] == 0 { cr1[$2] = 0 }
    $1 == "w" && $3 ~ /^0*4$/ && a[1] == 0 {
        cr1[$2] = index("0123456789abcdef", tolower(substr($4, length($4)))) - 1
    }
    $1 == "run" && a[1] == 0 { ran($2, a[2]) }
    $1 == "idle" && a[1] == 0 { ran($2, a[3]) }
    $1 == "pair" { ran(0, a[1]); ran(1, a[2]) }
    END {
        all = master == "" ? "" : toupper(digits[master])
        printf "%s", (length(all) > 4096 ? 13 : all)
    }'
}

# expected_rows SCRIPT ANSWERS: the rows of a diagram, from the commands and their answers.
expected_rows() {
    commands_of "$1" | awk -v answers="$2" '
    function single(d, input, output, k, drawn) {
        drawn = substr(input, 1, length(output)) ~ /[1-7]/
        for (k = 1; output != "-" && k <= length(output); k++)
            print d, substr(output, k, 1), drawn ? substr(input, k, 1) : "-"
    }
    { getline answer <answers; split(answer, a, " ") }
    $1 == "run" && a[1] == 0 { single($2, $3, a[2]) }
    $1 == "idle" && a[1] == 0 { single($2, $3, a[3]) }
    $1 == "pair" { single(0, "", a[1]); single(1, "", a[2]) }'
}

# shown PAGE WORDS: the block that follows these words in a page.
shown() {
    awk -v words="$2" '
    /^```/ { if (inside) exit; inside = found; next }
    inside
    index($0, words) { found = 1 }' "$1"
}

# ascii_of FILE: a diagram of line drawing characters as the plain one.
ascii_of() {
    sed -e 's/▁/_/g' -e 's/▔/-/g' -e 's/⣀/./g' -e "s/⠉/'/g" -e 's/╱/\//g' -e 's/╲/\\/g' "$1"
}

# pictures NAME SCRIPT ANSWERS: the dump and the diagrams hold what the answers say.
pictures() {
    run --vcd "$dir/vcd" "$2"
    check "$1: answers with --vcd" same "$3" "$dir/out"
    cycles_of_vcd "$dir/vcd" >"$dir/got"
    expected_cycles "$2" "$3" >"$dir/want"
    check "$1: cycles of the dump" same "$dir/want" "$dir/got"
    run --diagram --ascii "$2"
    cp "$dir/out" "$dir/ascii"
    grep -v '^ ' "$dir/ascii" >"$dir/plain" || true
    check "$1: answers with --diagram" same "$3" "$dir/plain"
    rows_of_diagram "$dir/ascii" >"$dir/got"
    expected_rows "$2" "$3" >"$dir/want"
    for device in 0 1; do
        grep "^$device" "$dir/got" >"$dir/got.one" || true
        grep "^$device" "$dir/want" >"$dir/want.one" || true
        check "$1: diagram of device $device" same "$dir/want.one" "$dir/got.one"
    done
    check "$1: nothing else in the diagram" equal "" "$(grep -v '^[01]' "$dir/got" | head -n 1)"
    run --diagram "$2"
    ascii_of "$dir/out" >"$dir/got"
    check "$1: both diagrams are one" same "$dir/ascii" "$dir/got"
}

# texts NAME SCRIPT ANSWERS: the text holds what the answers say, and is drawn as it is.
texts() {
    run --text "$dir/text" "$2"
    check "$1: answers with --text" same "$3" "$dir/out"
    expected_digits "$2" "$3" >"$dir/want"
    if [ "$(cat "$dir/want")" = 13 ]; then
        check "$1: too long for a text: status" equal "$status" 1
        check "$1: too long for a text: message" equal "$(cat "$dir/err")" \
            "pl022: $dir/text: refused with 13: more than 4096 cycles"
        check "$1: too long for a text: empty" [ ! -s "$dir/text" ]
        return
    fi
    check "$1: status with --text" equal "$status" 0
    check "$1: no message with --text" equal "$(cat "$dir/err")" ""
    tr -d '\n' <"$dir/text" >"$dir/got"
    check "$1: cycles of the text" same "$dir/want" "$dir/got"
    drawn "$1" "$dir/text"
}

# wrong_losses SCRIPT OUTPUT: what is wrong with the lost lines in an output. They stand
# behind runs that were done, device 0 first, and ROR tells of them.
wrong_losses() {
    commands_of "$1" | awk -v output="$2" '
    function take() { more = (getline line <output) > 0 }
    function wrong(what) { print what " at command " NR ": " line }
    function lost_line(  b) {
        split(line, b, " ")
        if (line !~ /^  lost [01] [1-9][0-9]* (0|[1-9a-f][0-9a-f]*)$/) wrong("no lost line")
        else if (!ran) wrong("lost without a cycle")
        else if (b[2] < least || $1 != "pair" && b[2] != $2) wrong("wrong device")
        least = b[2] + 1
        ror[b[2]] = 1
        take()
    }
    BEGIN { take() }
    {
        split(line, a, " ")
        done = a[1] == 0
        if ($1 == "reset" && done || $1 == "w" && done && $3 ~ /^0*20$/ && $4 ~ /[13579bdf]$/) ror[$2] = 0
        if ($1 == "dump" && line !~ (" ror=" (ror[$2] + 0) " ")) wrong("ROR does not agree")
        if ($1 == "r" && $3 == 18 && (a[2] ~ /[13579bdf]$/) != ror[$2] + 0) wrong("ROR does not agree")
        ran = $1 == "pair" || ($1 == "run" || $1 == "idle") && done
        least = 0
        take()
        while (more && line ~ /^ /) lost_line()
    }
    END { if (more) wrong("line without a command") }'
}

# losses NAME SCRIPT ANSWERS: what --lost adds to the answers.
losses() {
    run --lost "$2"
    grep -v '^ ' "$dir/out" >"$dir/plain" || true
    check "$1: answers with --lost" same "$3" "$dir/plain"
    check "$1: lost lines" equal "$(wrong_losses "$2" "$dir/out" | head -n 1)" ""
    lost=$((lost + $(grep -c '^  lost ' "$dir/out" || true)))
}
lost=0

# drawn NAME TEXT: both drawings of a text show it.
drawn() {
    run text --ascii "$2"
    cp "$dir/out" "$dir/ascii"
    check "$1: status of the drawing" equal "$status" 0
    check "$1: no message with the drawing" equal "$(cat "$dir/err")" ""
    text_of_diagram "$dir/ascii" >"$dir/got"
    check "$1: the drawing shows the text" same "$2" "$dir/got"
    run text "$2"
    ascii_of "$dir/out" >"$dir/got"
    check "$1: both drawings are one" same "$dir/ascii" "$dir/got"
    drawings=$((drawings + 1))
}
drawings=0

# ---------------------------------------------------------------- the recordings P1 to P5

# paper NAME DIGITS
paper() {
    run "$scripts/$1.txt"
    cp "$dir/out" "$dir/answers"
    check "$1: status" equal "$status" 0
    check "$1: digits" equal "$(sed -n '$p' "$dir/out")" "0 $(echo "$2" | tr A-F a-f)"
    pictures "$1" "$scripts/$1.txt" "$dir/answers"
    digits=$(rows_of_diagram "$dir/ascii" | awk '{ printf "%s", $2 }')
    check "$1: digits of the diagram" equal "$digits" "$(echo "$2" | tr A-F a-f)"
    digits=$(cycles_of_vcd "$dir/vcd" | awk '{ printf "%s", $1 }')
    check "$1: digits of the dump" equal "$digits" "$(echo "$2" | tr A-F a-f)"
    like_other "$1" "$scripts/$1.txt" "$dir/answers"
}

paper p1 0450145010AA
paper p2 0541054100AA
paper p3 BA54105410
paper p4 BA541054"32"10541054
paper p5 4501450101450145"8989898989"8AA

# The rows of P1, one by one.
run --diagram --ascii "$scripts/p1.txt"
row_is() {
    check "p1: row $1" equal "$(sed -n "s/^  0 $1 *//p" "$dir/out")" "$2"
}
row_is CLK '____/-\_/-\_/-\_/-\_____'
row_is FSS '\___________________/---'
row_is TXD '__/---\___/---\_____....'
row_is nSSPOE '\___________________/---'

# The page about scripts shows this diagram.
page=$(dirname "$0")/../../docs/SCRIPTS.md
if [ -e "$page" ]; then
    run --diagram "$scripts/p1.txt"
    cp "$dir/out" "$dir/want"
    shown "$page" 'examples/scripts/p1.txt`' >"$dir/got"
    check "p1: the diagram in the documentation" same "$dir/want" "$dir/got"
fi

# The page about the model shows diagrams, each behind the name of its script.
page=$(dirname "$0")/../../docs/MODEL.md
if [ -e "$page" ]; then
    awk -v dir="$dir" '
        /^```/ { inside = !inside && name != ""; if (!inside) name = ""; next }
        inside { print > (dir "/model." name) }
        !inside && match($0, /scripts\/[a-z0-9_]+\.txt/) { name = substr($0, RSTART + 8, RLENGTH - 12) }
    ' "$page"
    for drawn in "$dir"/model.*; do
        script=${drawn##*.}
        run "$scripts/$script.txt"
        cp "$dir/out" "$dir/answers"
        check "$script: status" equal "$status" 0
        pictures "$script" "$scripts/$script.txt" "$dir/answers"
        like_other "$script" "$scripts/$script.txt" "$dir/answers"
        run --diagram "$scripts/$script.txt"
        grep '^  [c01]' "$dir/out" >"$dir/want"
        check "$script: the diagram in MODEL.md" same "$dir/want" "$drawn"
    done
fi

run "$scripts/wired.txt"
cp "$dir/out" "$dir/answers"
pictures wired "$scripts/wired.txt" "$dir/answers"
check "wired: words read back" equal "$(sed -n '13,17p' "$dir/answers" | tr '\n' ';')" \
    '0 7;0 96;0 f;0 c5;0 3a;'
like_other wired "$scripts/wired.txt" "$dir/answers"

# Edition 1 drops the word A in slot 4, edition 2 ends it in slot 10 and skips slot 11; both send 5 afterwards.
run "$scripts/editions.txt"
cp "$dir/out" "$dir/answers"
check "editions: status" equal "$status" 0
check "editions: answers" equal "$(tr '\n' ';' <"$dir/answers")" \
    "0;0;0;0;0;0;0;0;0;0;0;0;04501 04501;0;0;0;5;aaaaaa 45010a;0;0 12;0 16;8 0;0 a;0;0;0014501454aa 0014501454aa;0 5;0 5;"
pictures editions "$scripts/editions.txt" "$dir/answers"
like_other editions "$scripts/editions.txt" "$dir/answers"

# Words lost to overrun: device 0 loses B and 0, device 1 loses 5 and later C.
cat >"$dir/want" <<'END'
ba5410547610101010 ba1054105488888888
  lost 0 2 0
  lost 1 1 5
0 d
0 d
0 1
0
0
0 10 ba10545454
0 ba54541010
  lost 1 1 c
END
run --lost "$scripts/lost.txt"
check "lost: status" equal "$status" 0
check "lost: answers of the set-up" equal "$(sed -n '1,26p' "$dir/out" | tr '\n' ';')" \
    "0;0;0;0;0;0;0;0;0;0;0;0;0;0;0;0;0;0;0;0;0;0;\
ba10101076101054321010547610541032105410761054543210545476541010""10 \
ba54101032541010765410543254105476545410325454107654545432545454""54;0;0;0;"
sed -n '27,$p' "$dir/out" >"$dir/got"
check "lost: answers and lost words" same "$dir/want" "$dir/got"
page=$(dirname "$0")/../../docs/SCRIPTS.md
if [ -e "$page" ]; then
    shown "$page" 'examples/scripts/lost.txt`' >"$dir/got"
    check "lost: answers and lost words in the documentation" same "$dir/want" "$dir/got"
fi
run "$scripts/lost.txt"
cp "$dir/out" "$dir/answers"
check "lost: nothing of it without --lost" equal "$(grep -c '^ ' "$dir/answers" || true)" 0
losses lost "$scripts/lost.txt" "$dir/answers"
pictures lost "$scripts/lost.txt" "$dir/answers"

# slave NAME DIGITS WORD: what a slave puts out, a cycle each, and what it received.
slave() {
    run "$scripts/$1.txt"
    check "$1: status" equal "$status" 0
    check "$1: digits" equal "$(sed -n 5p "$dir/out")" "0 $2"
    check "$1: word received" equal "$(sed -n '$p' "$dir/out")" "0 $3"
}

# Each sends 9: 6 is a driven HIGH, 2 a driven LOW, a is idle.
slave slave_motorola aaaa66666622222222666666aa a
slave slave_ti aaaaaaaa666622222222666aaaaa a
slave slave_microwire aaaaaaaaaaaaaaaaaaaaaaaaaaaaaaaaaaaaaaaa6666222222226666aaaa a5

# ---------------------------------------------------------------- vectors

vectors=0
for folder in ${VECTORS-}; do
    for script in "$folder"/*.in; do
        [ -e "$script" ] || continue
        run "$script"
        check "vector $script" same "${script%.in}.out" "$dir/out"
        check "vector $script: status" equal "$status" 0
        run - <"$script"
        check "vector $script from standard input" same "${script%.in}.out" "$dir/out"
        texts "vector $script" "$script" "${script%.in}.out"
        like_other "vector $script" "$script" "${script%.in}.out"
        vectors=$((vectors + 1))
    done
done

# ---------------------------------------------------------------- the language and the pictures

# answers_are NAME FORMAT ANSWERS: a script given as for printf; answers joined by semicolons.
answers_are() {
    printf "$2" >"$dir/script"
    run "$dir/script"
    check "$1: answers" equal "$(tr '\n' ';' <"$dir/out")" "$3"
    check "$1: status" equal "$status" 0
    check "$1: no message" equal "$(cat "$dir/err")" ""
}

answers_are "empty file" '' ''
answers_are "comments alone" '# a\n\n  \t\n \t# b\n' ''
answers_are "no final newline" 'r 0 c' '0 3;'
answers_are "CRLF" 'r 0 c\r\n\r\n# x\r\ndump 0\r\n' \
    '0 3;cr0=0 cr1=0 cpsr=0 imsc=0 dmacr=0 tx= rx= ror=0 rt=0 rtcount=0 frame=0 lines=a;'
answers_are "CR at the end of the file" 'r 0 c\r' '0 3;'
answers_are "blanks and tabs" '\t r\t0  c  \n' '0 3;'
answers_are "leading zeros" 'r 0 000000000000000000c\nw 0 0010 0000000000000000ff\npair 00002\n' \
    '0 3;0;aa aa;'
answers_are "capital digits" 'w 0 10 FE\nr 0 FE0\nrun 0 F\n' '0;0 22;12 -;'
answers_are "32 bits" 'w 0 8 ffffffff\nr 0 ffffffff\nr 0 fffffffc\n' '4;1 0;1 0;'
answers_are "NUL in a comment" '# \000\nr 0 c\n' '0 3;'
answers_are "no cycles" 'run 0 -\nidle 1 -\npair 0\n' '0 -;0 0 -;- -;'
answers_are "refused recordings" 'run 0 0008\nidle 0 f\nrun 1 77\n' '12 -;12 0 -;0 aa;'
answers_are "a refused write" 'w 0 0 2\nr 0 8\nw 0 c 0\n' '6;8 0;3;'
answers_are "editions that are there" 'reset 0\nreset 0 1\nreset 1 2\nreset 1 00000000002\n' '0;0;0;0;'
answers_are "editions that are not" \
    'reset 0 0\nreset 1 3\nreset 0 10\nreset 0 101\nreset 0 00A\nreset 1 ffffffff\n' '20;20;20;20;20;20;'
answers_are "a refused reset" 'w 0 10 4\nreset 0 3\nr 0 10\nreset 0\nr 0 10\n' '0;20;0 4;0;0 0;'

# A word of four bits is stopped in slot 4; CPSR can be written at once in edition 1, after slot 10 in edition 2.
stopped='w 0 10 2\nw 0 0 3\nw 0 8 a\nw 0 4 2\nrun 0 00000\nw 0 4 0\nw 0 10 2\nrun 0 00000\nr 0 c\nrun 0 0\nr 0 c\nw 0 10 4\n'
answers_are "stopped in edition 1" "$stopped" '0;0;0;0;0 04501;0;0;0 aaaaa;0 3;0 a;0 3;0;'
answers_are "stopped in edition 2" "reset 0 2\n$stopped" '0;0;0;0;0;0 04501;0;5;0 45010;0 17;0 a;0 7;0;'
answers_are "stopped after reset to edition 1" "reset 0 2\nreset 0\n$stopped" \
    '0;0;0;0;0;0;0 04501;0;0;0 aaaaa;0 3;0 a;0 3;0;'
answers_are "stopped after a refused reset" "reset 0 2\nreset 0 3\n$stopped" \
    '0;20;0;0;0;0;0 04501;0;5;0 45010;0 17;0 a;0 7;0;'
answers_are "editions of two devices" "reset 1 2\n$stopped" '0;0;0;0;0;0 04501;0;0;0 aaaaa;0 3;0 a;0 3;0;'

# The fields of a dump, beyond one byte and with both flags: loopback, overrun, time-out.
answers_are "dump of a long wait" \
    'w 0 10 fe\nw 0 0 3\nw 0 14 5\nw 0 24 2\nw 0 8 a\nw 0 4 3\npair 2000\ndump 0\n' \
    "0;0;0;0;0;0;$(awk 'BEGIN {
        for (n = 0; n < 2000; n++) {
            slot = int(n / 127)
            level = (slot > 9 ? 10 : 0) + (slot % 2 == 0 && slot > 0 && slot < 10 ? 1 : 0)
            printf "%x", level + (int((slot - 1) / 2) % 2 == 0 && slot > 0 && slot < 9 ? 4 : 0)
        }
        printf " "
        for (n = 0; n < 2000; n++) printf "a"
    }');cr0=3 cr1=3 cpsr=fe imsc=5 dmacr=2 tx= rx=a ror=0 rt=0 rtcount=730 frame=0 lines=a;"
{
    printf 'w 0 10 2\nw 0 0 3\nw 0 4 3\n'
    for word in 1 2 3 4 5 6 7 8; do
        echo "w 0 8 $word"
    done
    printf 'pair 96\nw 0 8 9\npair 12\ndump 0\npair 63\ndump 0\n'
    printf 'w 0 4 1\nw 0 10 fe\nw 0 0 ff03\nw 0 20 2\nw 0 4 2\npair 70000\ndump 0\n'
    printf 'w 1 8 1234\nw 1 8 5\ndump 1\n'
} >"$dir/script"
run "$dir/script"
dump_has() {
    check "dump: $1" grep -qxF "$1" "$dir/out"
}
dump_has 'cr0=3 cr1=3 cpsr=2 imsc=0 dmacr=0 tx= rx=1,2,3,4,5,6,7,8 ror=1 rt=0 rtcount=2 frame=0 lines=a'
dump_has 'cr0=3 cr1=3 cpsr=2 imsc=0 dmacr=0 tx= rx=1,2,3,4,5,6,7,8 ror=1 rt=1 rtcount=1 frame=0 lines=a'
dump_has 'cr0=ff03 cr1=2 cpsr=fe imsc=0 dmacr=0 tx= rx=1,2,3,4,5,6,7,8 ror=1 rt=0 rtcount=70000 frame=0 lines=a'
dump_has 'cr0=0 cr1=0 cpsr=0 imsc=0 dmacr=0 tx=1234,5 rx= ror=0 rt=0 rtcount=0 frame=0 lines=a'

# RT comes 64 cycles after the frame of the last word and goes with the last bit of a new one, held or dropped.
{
    printf 'w 0 10 2\nw 0 0 3\nw 0 4 3\nw 0 8 1\npair 73\ndump 0\npair 1\ndump 0\n'
    printf 'w 0 8 a\npair 8\ndump 0\npair 1\ndump 0\npair 3\n'
    for word in 3 4 5 6 7 8; do
        printf 'w 0 8 %s\npair 12\n' "$word"
    done
    printf 'pair 62\ndump 0\nw 0 8 9\npair 8\ndump 0\npair 1\ndump 0\n'
} >"$dir/script"
run "$dir/script"
loops='cr0=3 cr1=3 cpsr=2 imsc=0 dmacr=0 tx='
grep '^cr0' "$dir/out" >"$dir/dumps"
cat >"$dir/expected" <<END
$loops rx=1 ror=0 rt=0 rtcount=63 frame=0 lines=a
$loops rx=1 ror=0 rt=1 rtcount=0 frame=0 lines=a
$loops rx=1 ror=0 rt=1 rtcount=0 frame=1 lines=0
$loops rx=1,a ror=0 rt=0 rtcount=0 frame=1 lines=1
$loops rx=1,a,3,4,5,6,7,8 ror=0 rt=1 rtcount=0 frame=0 lines=a
$loops rx=1,a,3,4,5,6,7,8 ror=0 rt=1 rtcount=0 frame=1 lines=4
$loops rx=1,a,3,4,5,6,7,8 ror=1 rt=0 rtcount=0 frame=1 lines=5
END
check "RT: dumps" same "$dir/dumps" "$dir/expected"
check "RT: no message" equal "$(cat "$dir/err")" ""

# Wires hold while the other device runs; refused and empty runs take no time.
cat "$scripts/p1.txt" >"$dir/script"
cat >>"$dir/script" <<'END'
w 0 8 a
run 0 8
run 0 -
pair 0
run 0 142
run 1 25
idle 0 0000000000000000000000
reset 1
run 1 7
w 1 10 2
w 1 0 3
w 1 4 e
run 1 22222200044114411441155222
run 1 0000000000000000000000000000000011111
pair 40
reset 0
pair 3
END
run "$dir/script"
cp "$dir/out" "$dir/answers"
pictures "mixed script" "$dir/script" "$dir/answers"

# Every diagram stays within the width; what is no sane width is 80.
for columns in 40 41 79 80 81 132 1000; do
    status=0
    COLUMNS=$columns "$tool" --diagram --ascii "$scripts/wired.txt" >"$dir/out" || status=$?
    check "diagram of $columns columns: status" equal "$status" 0
    check "diagram of $columns columns" awk -v columns="$columns" \
        '/^ / && length($0) > columns { exit 1 }' "$dir/out"
    rows_of_diagram "$dir/out" | sed -n '/^1/p' >"$dir/got.$columns"
    check "diagram of $columns columns: cycles" same "$dir/got.40" "$dir/got.$columns"
done
run --diagram "$scripts/wired.txt"
cp "$dir/out" "$dir/want"
for columns in '' 0 39 1001 x 80x -80 ' 90' 99999999999999999999; do
    COLUMNS=$columns "$tool" --diagram "$scripts/wired.txt" >"$dir/out" || true
    check "COLUMNS '$columns' is not sane" same "$dir/want" "$dir/out"
done

# ---------------------------------------------------------------- lost words

# lost_is NAME FORMAT LINES: the lines that --lost adds to a script given as for printf, each
# ended by a semicolon here.
lost_is() {
    printf "$2" >"$dir/script"
    run "$dir/script"
    cp "$dir/out" "$dir/answers"
    losses "$1" "$dir/script" "$dir/answers"
    check "$1: status" equal "$status" 0
    check "$1: lost words" equal "$(grep '^ ' "$dir/out" | tr '\n' ';')" "$3"
    like_other "$1" "$dir/script" "$dir/answers"
    overruns=$((overruns + 1))
}
overruns=0

# copies NUMBER TEXT
copies() {
    count=$1
    while [ "$count" -gt 0 ]; do
        printf '%s' "$2"
        count=$((count - 1))
    done
}

# A master in loopback, Motorola, SPH 0, b 4: a word takes 12 cycles, its last bit is captured
# in the ninth. Eight words are held.
word=000000000000
eight="w 0 10 2\nw 0 0 3\nw 0 4 3\n$(copies 8 'w 0 8 6\n')run 0 $(copies 8 $word)\n"
lost_is "eight words held" "$eight" ''
lost_is "a ninth word" "${eight}w 0 8 9\nrun 0 $word\n" '  lost 0 1 9;'
lost_is "a ninth word in parts" "${eight}w 0 8 9\nrun 0 00000000\ndump 0\nrun 0 0\ndump 0\nrun 0 000\n" \
    '  lost 0 1 9;'
lost_is "a lost word 0" "${eight}w 0 8 0\nrun 0 $word\n" '  lost 0 1 0;'
lost_is "a lost word is cut" "${eight}w 0 8 fff3\nidle 0 $word\n" '  lost 0 1 3;'
lost_is "the last of eight" "$eight$(copies 7 'w 0 8 f\n')w 0 8 5\nidle 0 $(copies 9 $word)\n" '  lost 0 8 5;'
lost_is "in several runs" "$eight$(copies 7 'w 0 8 1\n')run 0 $(copies 3 $word)\nw 0 8 2\nrun 0 $(copies 5 $word)\n" \
    '  lost 0 3 1;  lost 0 5 2;'
lost_is "ROR cleared between" "${eight}w 0 8 1\nrun 0 $word\nw 0 20 1\ndump 0\nw 0 8 2\nrun 0 $word\ndump 0\n" \
    '  lost 0 1 1;  lost 0 1 2;'
lost_is "room for one word" "${eight}r 0 8\nw 0 8 9\nw 0 8 8\nrun 0 $word$word\n" '  lost 0 1 8;'
lost_is "runs that are refused or empty" \
    "${eight}w 0 8 9\nrun 0 ${word}8\nidle 0 ${word}f\nrun 0 -\nidle 0 -\npair 0\n" ''
lost_is "a full transmit queue" "$eight$(copies 9 'w 0 8 1\n')" ''
lost_is "device 0 of a pair" "${eight}w 0 8 9\nw 0 8 7\npair 30\n" '  lost 0 2 7;'
lost_is "stopped in edition 1" "${eight}w 0 8 9\nrun 0 00000\nw 0 4 1\nrun 0 $word\n" ''
lost_is "stopped in edition 2" "reset 0 2\n${eight}w 0 8 9\nrun 0 00000\nw 0 4 1\nrun 0 $word\n" '  lost 0 1 9;'

# Slaves that nobody reads. The inputs are those of the scripts above; a Microwire slave's word
# has eight bits, whatever b is.
# slave_loses NAME CR0 INPUTS WORD
slave_loses() {
    slave="w 1 10 2\nw 1 0 $2\nw 1 4 6\n"
    lost_is "$1 slave, a run for each frame" "$slave$(copies 10 "run 1 $3\n")" "  lost 1 1 $4;  lost 1 1 $4;"
    lost_is "$1 slave, one run" "${slave}run 1 $(copies 12 "$3")\n" "  lost 1 4 $4;"
}
slave_loses Motorola 3 22004455001144550011002222 a
slave_loses TI 13 0033225544110055441100000000 a
slave_loses Microwire 23 224455001144550011001144550011445500110011001100110011002222 a5

# Both devices of a wired pair: SPH 1, h 6, b 4; nine words each way, the ninth written in mid-message.
wired="w 0 10 2\nw 0 0 583\nw 1 10 2\nw 1 0 583\n$(copies 8 'w 0 8 6\nw 1 8 9\n')pair 4\nw 1 4 6\nw 0 4 2\n"
lost_is "a wired pair" "${wired}pair 100\nw 0 8 3\nw 1 8 0\npair 400\nr 0 18\nr 1 18\n" '  lost 0 1 0;  lost 1 1 3;'

# Behind the answer and before the diagram.
printf "${eight}w 0 8 9\nrun 0 $word\n" >"$dir/script"
run --diagram --ascii "$dir/script"
cp "$dir/out" "$dir/want"
run --lost --diagram --ascii "$dir/script"
check "lost line behind its answer" equal \
    "$(sed -n '/^0 [0-9a-f]/h; /^  lost/{ x; p; x; p; n; p; }' "$dir/out" | tr '\n' ';')" \
    '0 0450101454aa;  lost 0 1 9;  time 96, 12 cycles;'
grep -v '^  lost ' "$dir/out" >"$dir/got"
check "lost line beside a diagram" same "$dir/want" "$dir/got"

# ---------------------------------------------------------------- recordings as text

# repeated CHARACTERS COUNT: COUNT times 65,536 bytes or more of the characters.
repeated() {
    awk -v s="$1" -v count="$2" 'BEGIN {
        while (length(s) < 65536) s = s s
        for (n = 0; n < count; n++) printf "%s", s
    }'
}

# lines_are NAME SCRIPT LINES: the lines of a script's text, each ended by a semicolon here.
lines_are() {
    run "$2"
    cp "$dir/out" "$dir/answers"
    texts "$1" "$2" "$dir/answers"
    check "$1: lines of the text" equal "$(tr '\n' ';' <"$dir/text")" "$3"
    like_other "$1" "$2" "$dir/answers"
    lines=$((lines + 1))
}
lines=0

# text_is NAME FORMAT LINES: the same of a script given as for printf.
text_is() {
    printf "$2" >"$dir/script"
    lines_are "$1" "$dir/script" "$3"
}

# cycles NUMBER: inputs, all LOW.
cycles() { printf "%0$1d" 0; }

# slots NUMBER DIGITS: each digit as often as a slot has cycles.
slots() {
    awk -v n="$1" -v digits="$2" 'BEGIN {
        for (k = 1; k <= length(digits); k++)
            for (c = 0; c < n; c++) printf "%s", substr(digits, k, 1)
    }'
}

# idle_line NUMBER: so many idle cycles of Motorola.
idle_line() { cycles "$1" | tr 0 A; }

for script in "$scripts"/*.txt; do
    run "$script"
    cp "$dir/out" "$dir/answers"
    texts "$script" "$script" "$dir/answers"
    like_other "$script" "$script" "$dir/answers"
done

# The papers' words, a line each.
A_SPH0=0450145010AA
B_SPH0=0014501454AA
A_TI=BA54105410
lines_are "text of p1" "$scripts/p1.txt" "$A_SPH0;"
lines_are "text of p2" "$scripts/p2.txt" "0541054100AA;"
lines_are "text of p3" "$scripts/p3.txt" "$A_TI;"
lines_are "text of p4" "$scripts/p4.txt" "BA541054;3210541054;"
lines_are "text of p5" "$scripts/p5.txt" "4501450101450145""89898989898AA;"
lines_are "text of two_sph0" "$scripts/two_sph0.txt" "$A_SPH0;$B_SPH0;"
lines_are "text of two_sph1" "$scripts/two_sph1.txt" "054105410;105410544AA;"
lines_are "text of editions" "$scripts/editions.txt" "04501AAAAAA;$B_SPH0;"
lines_are "text of wired" "$scripts/wired.txt" \
    "AAAA;$(slots 6 05454101010541054);$(slots 6 10105454541054100AA);"
for script in motorola ti microwire; do
    lines_are "text of a slave, $script" "$scripts/slave_$script.txt" ""
done

# Several words, slots of one cycle and of more.
three='w 0 8 a\nw 0 8 5\nw 0 8 a\nw 0 4 2\n'
text_is "SPH 0, three words" "w 0 10 2\nw 0 0 3\n${three}run 0 $(cycles 36)\n" \
    "$A_SPH0;$B_SPH0;$A_SPH0;"
text_is "SPH 0, three words, h 2" "w 0 10 4\nw 0 0 3\n${three}run 0 $(cycles 72)\n" \
    "$(slots 2 $A_SPH0);$(slots 2 $B_SPH0);$(slots 2 $A_SPH0);"
text_is "SPH 1, three words" "w 0 10 2\nw 0 0 83\n${three}run 0 $(cycles 28)\n" \
    "054105410;10541054;541054100AA;"
text_is "SPH 1, three words, h 3" "w 0 10 2\nw 0 0 283\n${three}run 0 $(cycles 84)\n" \
    "$(slots 3 054105410);$(slots 3 10541054);$(slots 3 541054100AA);"
text_is "TI, three words" \
    "w 0 10 2\nw 0 0 13\nw 0 8 a\nw 0 8 5\nw 0 8 3\nw 0 4 2\nrun 0 $(cycles 26)\n" \
    "BA541054;32105410;7610105454;"
text_is "TI, two words, h 2" "w 0 10 4\nw 0 0 13\nw 0 8 a\nw 0 8 5\nw 0 4 2\npair 36\n" \
    "$(slots 2 BA541054);$(slots 2 3210541054);"
control='w 0 8 a5\nw 0 8 3c\nw 0 8 ff\nw 0 4 2\n'
text_is "Microwire, three words" "w 0 10 2\nw 0 0 23\n${control}run 0 $(cycles 81)\n" \
    "4501450101450145""8989898989;0101454545450101""8989898989;4545454545454545""89898989898AA;"
text_is "Microwire, b 8, h 5" "w 0 10 a\nw 0 0 27\nw 0 8 a5\nw 0 8 3c\nw 0 4 2\nrun 0 $(cycles 355)\n" \
    "$(slots 5 "4501450101450145""898989898989898989");$(slots 5 "0101454545450101""8989898989898989898AA");"

# Cycles before the first word: disabled, with other idle lines, and enabled.
text_is "idle before the first word" \
    "w 0 10 2\nw 0 0 3\nw 0 4 2\nrun 0 000\nw 0 8 a\nrun 0 $(cycles 12)\n" "AAA;$A_SPH0;"
text_is "disabled before the first word" \
    "run 0 00\nw 0 10 2\nw 0 0 43\nrun 0 0\nw 0 8 a\nrun 0 0\nw 0 4 2\nrun 0 $(cycles 12)\n" \
    "AABB;1541054101BB;"
text_is "TI, idle on both sides" \
    "w 0 10 2\nw 0 0 13\nrun 0 00\nw 0 8 a\nw 0 4 2\nrun 0 $(cycles 10)\nrun 0 000\n" \
    "88;${A_TI}888;"
text_is "a master without a word" 'w 0 10 2\nw 0 0 3\nw 0 4 2\nrun 0 00000\n' 'AAAAA;'
text_is "a word written during a frame" \
    "w 0 10 2\nw 0 0 3\nw 0 8 a\nw 0 4 2\nrun 0 000\nw 0 8 5\nrun 0 $(cycles 21)\n" "$A_SPH0;$B_SPH0;"

# A run to idle ends in the first idle slot of a word; the second follows with the next run.
p1='w 0 10 2\nw 0 0 3\nw 0 8 a\nw 0 4 2\n'
text_is "run to idle" "${p1}idle 0 $(cycles 30)\n" '0450145010A;'
text_is "two runs to idle" "${p1}idle 0 $(cycles 30)\nw 0 8 5\nidle 0 $(cycles 30)\n" \
    "$A_SPH0;0014501454A;"
text_is "run to idle of an idle master" "${p1}idle 0 $(cycles 30)\nidle 0 0000\nrun 0 0\n" "$A_SPH0;"

# Which device, and which cycles of it.
p4_1='w 1 10 2\nw 1 0 13\nw 1 8 a\nw 1 8 5\nw 1 4 2\n'
text_is "device 1 is the master" "${p4_1}run 1 $(cycles 18)\n" 'BA541054;3210541054;'
text_is "device 1 is the master of a pair" \
    "w 0 10 2\nw 0 0 13\nw 0 4 6\npair 2\n${p4_1}pair 18\n" 'AA;BA541054;3210541054;'
text_is "two masters in a pair" "$p1${p4_1}pair 12\nrun 1 0\n" "$A_SPH0;"
text_is "device 1 is a master first" "$p1${p4_1}run 1 0\npair 17\n" 'BA541054;3210541054;'
text_is "a run of no cycles makes no master" "$p1${p4_1}run 0 -\nidle 0 -\npair 0\nrun 1 $(cycles 18)\n" \
    'BA541054;3210541054;'
text_is "a refused run makes no master" "$p1${p4_1}run 0 08\nidle 0 8\nrun 1 $(cycles 18)\n" \
    'BA541054;3210541054;'
text_is "the other device's cycles" "${p1}run 0 000\nrun 1 0000\nrun 0 $(cycles 9)\nreset 1\n" "$A_SPH0;"
text_is "cycles as a slave are left out" \
    "${p1}run 0 $(cycles 12)\nw 0 4 0\nw 0 4 4\nrun 0 000\npair 5\nw 0 4 6\nrun 0 22\nw 0 4 4\nw 0 4 0\nrun 0 0\n" \
    "${A_SPH0}A;"
text_is "reset in the middle" \
    "w 0 10 2\nw 0 0 3\nw 0 8 a\nw 0 8 5\nw 0 8 5\nw 0 4 2\nrun 0 00000\nreset 0\nrun 0 00\nw 0 10 2\nw 0 0 13\nw 0 8 a\nw 0 4 2\nrun 0 $(cycles 10)\n" \
    "04501AA;$A_TI;"
text_is "disabled in the middle" "${p1}w 0 8 5\nrun 0 00000\nw 0 4 0\nrun 0 00\nw 0 4 2\nrun 0 $(cycles 12)\n" \
    "04501AA;$B_SPH0;"
text_is "disabled in the middle, edition 2" \
    "reset 0 2\n${p1}w 0 8 5\nrun 0 00000\nw 0 4 0\nrun 0 $(cycles 8)\nw 0 4 2\nrun 0 $(cycles 12)\n" \
    "0450145010AAA;$B_SPH0;"
text_is "enabled again in the middle, edition 2" \
    "reset 0 2\n${p1}w 0 8 5\nrun 0 00000\nw 0 4 0\nrun 0 000\nw 0 4 2\nrun 0 $(cycles 16)\n" \
    "$A_SPH0;$B_SPH0;"
text_is "no device, no cycles" 'r 0 c\npair 3\nw 0 8 1\nw 1 4 4\npair 2\n' ''

# 4,096 cycles fit, and one more does not. Cycles of others than the master do not count.
on='w 0 10 2\nw 0 0 3\nw 0 4 2\n'
text_is "4,096 cycles" "${on}pair 4096\n" "$(idle_line 4096);"
text_is "4,096 cycles in parts" "${on}pair 4000\nrun 0 $(cycles 84)\nw 0 8 a\nrun 0 $(cycles 12)\n" \
    "$(idle_line 4084);$A_SPH0;"
text_is "4,097 cycles" "${on}pair 4097\n" ''
text_is "4,097 cycles in parts" "${on}pair 4000\nrun 0 $(cycles 84)\nw 0 8 a\nrun 0 $(cycles 12)\nrun 0 0\n" ''
text_is "a million cycles" "${on}pair 1000000\n" ''
text_is "4,097 cycles, most of them disabled" "pair 4096\n${on}run 0 0\n" ''
text_is "4,097 cycles of no master" 'pair 4097\n' ''
text_is "many cycles of another device" "run 0 $(cycles 5000)\n${p4_1}run 1 $(cycles 18)\n" \
    'BA541054;3210541054;'
text_is "many cycles as a slave" "w 0 4 4\npair 4000\nrun 0 $(cycles 5000)\n${p1}run 0 $(cycles 12)\n" "$A_SPH0;"

# After a bad line the text holds the cycles up to there.
cat "$scripts/p4.txt" >"$dir/script"
echo 'frob' >>"$dir/script"
run --text "$dir/text" "$dir/script"
check "text up to a bad line: status" equal "$status" 2
check "text up to a bad line" equal "$(tr '\n' ';' <"$dir/text")" 'BA541054;3210541054;'
printf "${on}pair 4097\nfrob\n" >"$dir/script"
run --text "$dir/text" "$dir/script"
check "too long a text before a bad line: status" equal "$status" 1
check "too long a text before a bad line: messages" equal "$(wc -l <"$dir/err" | tr -d ' ')" 2

# The page about scripts shows the text of p4 and its drawing.
printf 'BA541054\n3210541054\n' >"$dir/p4"
run text --ascii "$dir/p4"
cat >"$dir/want" <<'END'
  time 0, 8 cycles
  cycle    0         5
  CLK      --\_/-\_/-\_/-\_
  FSS      ----\___________
  TXD      ..../---\___/---
  nSSPOE   ----\___________
  time 8, 10 cycles
  cycle    0         5
  CLK      /-\_/-\_/-\_/-\_/-\_
  FSS      /---\_______________
  TXD      \_______/---\___/---
  nSSPOE   ____________________
END
check "p4: the drawing of the text" same "$dir/want" "$dir/out"
page=$(dirname "$0")/../../docs/SCRIPTS.md
if [ -e "$page" ]; then
    sed -n '/^  time 0, 8 cycles$/,/^```$/p' "$page" | sed '/^```$/d' >"$dir/shown"
    ascii_of "$dir/shown" >"$dir/got"
    check "p4: the drawing in the documentation" same "$dir/want" "$dir/got"
    sed -n '/^BA541054$/,/^```$/p' "$page" | sed '/^```$/d' >"$dir/got"
    check "p4: the text in the documentation" same "$dir/p4" "$dir/got"
fi

# Texts that are read as they are: every digit, one cycle, the longest.
text_drawn() {
    printf "$2" >"$dir/text"
    drawn "$1" "$dir/text"
}
text_drawn "every digit" '0123456789ABCDEF\nFEDCBA9876543210\n'
text_drawn "every line of one cycle" 'A\n0\nF\nF\n'
text_drawn "empty text" ''
check "empty text: nothing is drawn" equal "$(cat "$dir/out")" ""
text_drawn "4,096 cycles in a line" "$(idle_line 4096)\n"
awk 'BEGIN { while (n++ < 4096) print "A" }' >"$dir/longest"
cp "$dir/longest" "$dir/text"
check "4,096 lines: as long as a text can be" equal "$(wc -c <"$dir/text" | tr -d ' ')" 8192
drawn "4,096 lines" "$dir/text"
for columns in 40 79 132 1000; do
    status=0
    run --text "$dir/text" "$scripts/wired.txt"
    COLUMNS=$columns "$tool" text --ascii "$dir/text" >"$dir/out" || status=$?
    check "text at $columns columns: status" equal "$status" 0
    check "text at $columns columns" awk -v columns="$columns" 'length($0) > columns { exit 1 }' "$dir/out"
    text_of_diagram "$dir/out" >"$dir/got"
    check "text at $columns columns: cycles" same "$dir/text" "$dir/got"
done

# not_read NUMBER LINE COLUMN FILE: refused at that place, with nothing drawn.
not_read() {
    run text "$4"
    case $1 in
    13) meaning='more than 4096 cycles' ;;
    17) meaning='a character other than 0 to 9, A to F and the line feed' ;;
    18) meaning='a line without a cycle' ;;
    19) meaning='the text does not end with a line feed' ;;
    esac
    check "refused text $1 at $2:$3: message" equal "$(cat "$dir/err")" \
        "pl022: $4:$2:$3: refused with $1: $meaning"
    check "refused text $1 at $2:$3: status" equal "$status" 2
    check "refused text $1 at $2:$3: nothing drawn" equal "$(cat "$dir/out")" ""
    refused=$((refused + 1))
}
refused=0

# refused_at NUMBER LINE COLUMN FORMAT: a text given as for printf.
refused_at() {
    printf "$4" >"$dir/text"
    not_read "$1" "$2" "$3" "$dir/text"
}

refused_at 17 1 1 'x\n'
refused_at 17 1 1 'a\n'
refused_at 17 1 1 ' A\n'
refused_at 17 1 2 'Ab\n'
refused_at 17 1 2 'AG\n'
refused_at 17 1 2 '0\000\n'
refused_at 17 1 2 '0\377\n'
refused_at 17 1 2 '0/\n'
refused_at 17 1 2 '0:\n'
refused_at 17 1 2 '0@\n'
refused_at 17 1 3 'AB\r\nCD\r\n'
refused_at 17 2 1 'AB\n\r\n'
refused_at 17 2 1 'A\n\000\n'
refused_at 17 2 3 'A\nBCd\nE\n'
refused_at 17 3 2 'A\nB\nC\tD\n'
refused_at 17 3 3 'A\nB\nCC \n'
refused_at 17 3 1 'A\nB\n#'
refused_at 17 3 2 'A\nB\nCc'
refused_at 18 1 1 '\n'
refused_at 18 1 1 '\nA\n'
refused_at 18 1 1 '\n\n\n'
refused_at 18 2 1 'A\n\nB\n'
refused_at 18 3 1 'A\nB\n\n'
refused_at 18 3 1 'A\nB\n\nC'
refused_at 19 1 2 'A'
refused_at 19 1 5 '0123'
refused_at 19 2 2 'A\nB'
refused_at 19 3 4 'A\nB\nCDE'

# The first place decides.
refused_at 17 1 1 'x\n\nA'
refused_at 18 1 1 '\nx\nA'
refused_at 17 2 2 'A\nBx\n\nC'
refused_at 18 2 1 'A\n\nx\nC'

# One digit too many, in the first and in the last line, and what may stand in its place.
full=$(idle_line 4096)
refused_at 13 1 4097 "${full}A\n"
refused_at 13 1 4097 "${full}A"
refused_at 13 1 4097 "${full}0x\n\n"
refused_at 13 2 1 "$full\nA\n"
refused_at 13 2 1 "$full\nAx"
refused_at 17 1 4097 "${full}x\n"
refused_at 17 2 1 "$full\nx\n"
refused_at 18 2 1 "$full\n\nA"
refused_at 19 1 4097 "$full"
refused_at 17 1 4096 "${full%A}xA\n"

# Behind the longest text, and far beyond it.
longest() {
    { cat "$dir/longest"; printf "$4"; } >"$dir/text"
    not_read "$1" "$2" "$3" "$dir/text"
}
longest 13 4097 1 'A'
longest 13 4097 1 'A\nB\n'
longest 17 4097 1 'x'
longest 17 4097 1 '\000\n'
longest 18 4097 1 '\n'
repeated A 16 >"$dir/long"
not_read 13 1 4097 "$dir/long"
repeated '\n' 16 >"$dir/long"
not_read 18 1 1 "$dir/long"
repeated 'A\n' 16 >"$dir/long"
not_read 13 4097 1 "$dir/long"
repeated '5\r\n' 16 >"$dir/long"
not_read 17 1 2 "$dir/long"
{ echo BA541054; repeated '#' 16; } >"$dir/long"
not_read 17 2 1 "$dir/long"
if [ -c /dev/zero ]; then
    not_read 17 1 1 /dev/zero
fi
rm -f "$dir/long"

# A text with a character too many, with a line feed too many, and cut short, at every place.
awk -v dir="$dir" 'BEGIN {
    text = "BA541054\n3210541054\n7\n"
    for (at = 0; at <= length(text); at++) {
        before = substr(text, 1, at)
        behind = substr(text, at + 1)
        line = gsub(/\n/, "&", before) + 1
        place = before
        sub(/.*\n/, "", place)
        column = length(place) + 1
        begins = column == 1
        ends = substr(behind, 1, 1) == "\n"
        printf "%s", before "x" behind >(dir "/place.x" at)
        print 17, line, column, "x" at
        printf "%s", before "\n" behind >(dir "/place.n" at)
        if (begins) print 18, line, column, "n" at
        else if (ends) print 18, line + 1, 1, "n" at
        else print 0, 0, 0, "n" at
        printf "%s", before >(dir "/place.c" at)
        if (begins) print 0, 0, 0, "c" at
        else print 19, line, column, "c" at
    }
}' >"$dir/places"
while read -r number line column place; do
    if [ "$number" -eq 0 ]; then
        drawn "text with a change at $place" "$dir/place.$place"
    else
        not_read "$number" "$line" "$column" "$dir/place.$place"
    fi
done <"$dir/places"

# From standard input, by both names.
for given in '' -; do
    status=0
    "$tool" text --ascii $given <"$dir/p4" >"$dir/out" 2>"$dir/err" || status=$?
    check "text from standard input '$given': status" equal "$status" 0
    text_of_diagram "$dir/out" >"$dir/got"
    check "text from standard input '$given'" same "$dir/p4" "$dir/got"
    status=0
    printf 'A\nB\r\n' | "$tool" text $given >"$dir/out" 2>"$dir/err" || status=$?
    check "refused text from standard input '$given': status" equal "$status" 2
    check "refused text from standard input '$given': place" grep -q '^pl022: stdin:2:2: refused with 17: ' "$dir/err"
done

# Names that are words of the command line.
mkdir "$dir/names"
cp "$dir/p4" "$dir/names/--ascii"
cp "$scripts/p4.txt" "$dir/names/text"
# named NAME WORDS...: runs the tool in that folder, which must be done without a message.
named() {
    name=$1
    shift
    status=0
    (cd "$dir/names" && "$tool_path" "$@") >"$dir/out" 2>"$dir/err" || status=$?
    check "$name: status" equal "$status" 0
    check "$name: no message" equal "$(cat "$dir/err")" ""
}
named "a script with the name text" ./text
check "a script with the name text: answers" equal "$(sed -n '$p' "$dir/out")" '0 ba5410543210541054'
named "a script with the name text behind --" -- text
check "a script with the name text behind --: answers" equal "$(sed -n '$p' "$dir/out")" '0 ba5410543210541054'
named "a text with the name of an option" text -- --ascii
check "a text with the name of an option: drawing" equal "$(grep -c CLK "$dir/out")" 2
cp "$dir/p4" "$dir/names/text"
named "a text with the name text" text text
check "a text with the name text: drawing" equal "$(grep -c CLK "$dir/out")" 2
named "switch before the command" --ascii text text
check "switch before the command: drawing" same "$dir/want" "$dir/out"

# ---------------------------------------------------------------- bad scripts

bad_scripts=0
# bad LINE WORD FORMAT: status 2, the line number and a word of the message.
bad() {
    printf "$3" >"$dir/script"
    bad_file "$dir/script" "$1" "$2"
}

# bad_file FILE LINE WORD
bad_file() {
    run "$1"
    check "bad script '$3' line $2: status $status" equal "$status" 2
    check "bad script '$3' line $2: one message" equal "$(wc -l <"$dir/err" | tr -d ' ')" 1
    check "bad script '$3' line $2: place" grep -qF "pl022: $1:$2: " "$dir/err"
    check "bad script '$3' line $2: word" grep -qF -- "$3" "$dir/err"
    bad_scripts=$((bad_scripts + 1))
}

bad 1 "unknown command 'frob'" 'frob 0\n'
bad 2 "unknown command 'RESET'" 'reset 0\nRESET 0\n'
bad 3 "unknown command 'resets'" '# a\n\nresets 0\n'
bad 4 "unknown command '0'" '\r\n\r\n\r\n0 run 12\r\n'
bad 1 "unknown command 'r???'" 'r\000\001\377 0\n'
bad 1 "unknown command 'abcdefghijklmnopqrstuvwx...'" 'abcdefghijklmnopqrstuvwxyz\n'
bad 1 'words, 1: expected reset D [EDITION]' 'reset\n'
bad 1 'words, 4: expected reset D [EDITION]' 'reset 0 1 2\n'
bad 1 'words, 5: expected reset D [EDITION]' 'reset 0 2 # comment\n'
bad 1 'expected r D OFFSET' 'r 0\n'
bad 1 'expected r D OFFSET' 'r 0 0 0\n'
bad 2 'expected w D OFFSET VALUE' 'w 0 10 2\nw 0 0\n'
bad 2 'expected w D OFFSET VALUE' 'w 0 10 2\nw 0 0 3 3\n'
bad 1 'words, 9: expected run D INPUTS' 'run 0 0 0 0 0 0 0 0\n'
bad 1 'expected run D INPUTS' 'run 0\n'
bad 1 'expected idle D INPUTS' 'idle 0\n'
bad 1 'expected pair N' 'pair\n'
bad 1 'expected pair N' 'pair 0 1\n'
bad 1 'expected dump D' 'dump\n'
bad 1 'expected dump D' 'dump 0 # comment\n'
bad 1 "device '2': expected 0 or 1" 'reset 2\n'
bad 1 "device '2': expected 0 or 1" 'reset 2 0\n'
bad 1 "edition 'two' is not hexadecimal" 'reset 0 two\n'
bad 1 "edition '0x2' is not hexadecimal" 'reset 0 0x2\n'
bad 1 "edition '-' is not hexadecimal" 'reset 0 -\n'
bad 1 "edition '#' is not hexadecimal" 'reset 0 #\n'
bad 1 "edition '100000002' is above 32 bits" 'reset 0 100000002\n'
bad 1 "device 'x'" 'r x 0\n'
bad 1 "device '-1'" 'w -1 0 0\n'
bad 1 "device '00'" 'dump 00\n'
bad 1 "device '7'" 'idle 7 00\n'
bad 1 "device '10'" 'run 10 00\n'
bad 1 "offset 'xyz' is not hexadecimal" 'r 0 xyz\n'
bad 1 "offset '0x4' is not hexadecimal" 'r 0 0x4\n'
bad 1 "offset '+4' is not hexadecimal" 'r 0 +4\n'
bad 1 "offset '-4' is not hexadecimal" 'w 0 -4 0\n'
bad 1 "offset '100000000' is above 32 bits" 'r 0 100000000\n'
bad 1 "offset '100000000g' is not hexadecimal" 'r 0 100000000g\n'
bad 2 "value 'g' is not hexadecimal" 'dump 1\nw 0 0 g'
bad 2 "value '1.5' is not hexadecimal" 'dump 1\nw 0 0 1.5\n'
bad 1 "value '1ffffffff' is above 32 bits" 'w 0 8 1ffffffff\n'
bad 1 "value '00123456789' is above 32 bits" 'w 0 8 00123456789\n'
bad 1 "'x' at place 3 of the recording" 'run 0 01x2\n'
bad 1 "'-' at place 1 of the recording" 'run 0 --\n'
bad 1 "'-' at place 2 of the recording" 'run 0 0-\n'
bad 1 "'z' at place 2 of the recording" 'idle 0 9z\n'
bad 1 "'?' at place 4 of the recording" 'idle 0 012\000\n'
bad 1 "'?' at place 2 of the recording" 'run 0 1\r2\n'
bad 1 "number of cycles 'a' is not decimal" 'pair a\n'
bad 1 "number of cycles '-1' is not decimal" 'pair -1\n'
bad 1 "number of cycles '-' is not decimal" 'pair -\n'
bad 1 "number of cycles '0x10' is not decimal" 'pair 0x10\n'
bad 1 'too many cycles: expected 16777216 or less' 'pair 16777217\n'
bad 1 'too many cycles' 'pair 99999999999999999999999999999999999999\n'
bad 5 'unknown command' 'dump 0\nreset 1\n# c\n\nnonsense'

{
    printf 'dump 0\nrun 0 '
    repeated 0123 256
    printf '0\n'
} >"$dir/long"
bad_file "$dir/long" 2 'too many cycles'
repeated '#   ' 257 >"$dir/long"
bad_file "$dir/long" 1 'line too long'
rm -f "$dir/long"
if [ -c /dev/zero ]; then
    bad_file /dev/zero 1 'line too long'
fi

printf 'r 0 c\nrun 1 000\nr 0 zz\ndump 0\n' >"$dir/script"
"$tool" --vcd "$dir/vcd" "$dir/script" >"$dir/out" 2>&1 || true
check "answers before a bad line, then the message" equal \
    "$(sed 's/.*script:3: .*/message/' "$dir/out" | tr '\n' ';')" '0 3;0 aaa;message;'
check "the dump up to a bad line" equal "$(cycles_of_vcd "$dir/vcd" | tr '\n' ';')" \
    'a 0 a 0;a 0 a 0;a 0 a 0;'
status=0
printf 'pair\n' | "$tool" >"$dir/out" 2>"$dir/err" || status=$?
check "bad script on standard input" grep -q '^pl022: stdin:1: ' "$dir/err"
check "bad script on standard input: status" equal "$status" 2

# ---------------------------------------------------------------- usage, files

# usage ARGUMENTS...: status 2 with the usage.
usage() {
    run "$@" </dev/null
    check "usage '$*': status" equal "$status" 2
    check "usage '$*': text" grep -q '^usage: pl022 ' "$dir/err"
    check "usage '$*': no answer" equal "$(cat "$dir/out")" ""
}
usage --frob
usage -x
usage --diagrams
usage --vcd
usage --vcd -
usage --vcd "$dir/a" --vcd "$dir/b"
usage --text
usage --text -
usage --text "$dir/a" --text "$dir/b"
usage text a b
usage text - -
usage text --frob
usage text --diagram
usage text --lost
usage --losts
usage --diagram text
usage text --vcd "$dir/a" "$dir/p4"
usage --text "$dir/a" text "$dir/p4"
usage text "$dir/p4" --ascii --text "$dir/a"
check "wrong usage makes no file" [ ! -e "$dir/a" ]
usage a b
usage - -
usage -- --vcd a
run --help
check "--help: status" equal "$status" 0
check "--help: text" grep -q '^usage: pl022 ' "$dir/out"
check "--help: --lost" grep -q '^  --lost ' "$dir/out"
check "--help: judge" grep -q '^       pl022 judge --cr0 X --cpsr X ' "$dir/out"
cp "$scripts/p1.txt" "$dir/--ascii"
status=0
(cd "$dir" && "$tool_path" -- --ascii) >"$dir/out" 2>"$dir/err" || status=$?
check "a script with the name of an option" equal "$status" 0

# fails NAME: the last run had status 1 and one message.
fails() {
    check "$1: status $status" equal "$status" 1
    check "$1: message" grep -q "^pl022: ." "$dir/err"
    files=$((files + 1))
}
files=0

run "$dir/missing"
fails "script that is missing"
run ""
fails "script without a name"
run "$dir"
fails "folder as the script"
# no_output SWITCH NAME: names of a file that cannot be written, or may not be.
no_output() {
    run "$1" "$dir/none/file" "$scripts/p1.txt"
    fails "$2 in a missing folder"
    check "$2 in a missing folder: no answer" equal "$(cat "$dir/out")" ""
    run "$1" "$dir" "$scripts/p1.txt"
    fails "folder as the $2"
    run "$1" "" "$scripts/p1.txt"
    fails "$2 without a name"
    run "$1" "$dir/untouched" "$dir/missing"
    fails "$2 of a missing script"
    check "$2 of a missing script is not made" [ ! -e "$dir/untouched" ]
    run "$1" "$dir/script" "$dir/script"
    fails "$2 into the script"
    check "$2 into the script: the script stays" same "$scripts/p1.txt" "$dir/script"
    status=0
    "$tool" "$1" "$dir/both" "$scripts/p1.txt" >"$dir/both" 2>"$dir/err" || status=$?
    fails "$2 into the answers"
    status=0
    "$tool" "$1" "$dir/script" <"$dir/script" >"$dir/out" 2>"$dir/err" || status=$?
    fails "$2 into the script on standard input"
    check "$2 into the script on standard input: the script stays" same "$scripts/p1.txt" "$dir/script"
}
cp "$scripts/p1.txt" "$dir/script"
no_output --vcd dump
no_output --text text
echo kept >"$dir/kept"
ln "$dir/kept" "$dir/kept.too"
run --vcd "$dir/kept" --text "$dir/kept.too" "$scripts/p1.txt"
fails "text into the dump"
check "text into the dump: no answer" equal "$(cat "$dir/out")" ""
check "text into the dump: the file stays" equal "$(cat "$dir/kept")" kept
run --text "$dir/script" --vcd "$dir/kept" "$dir/script"
fails "dump beside a text that is the script"
check "dump beside a text that is the script: the file stays" equal "$(cat "$dir/kept")" kept
run --vcd /dev/null --text /dev/null "$scripts/p1.txt"
check "dump and text into no file: status" equal "$status" 0
run --text "$dir/text" --vcd "$dir/vcd" --diagram "$scripts/p4.txt"
check "text beside dump and diagram: status" equal "$status" 0
check "text beside dump and diagram" same "$dir/p4" "$dir/text"
digits=$(cycles_of_vcd "$dir/vcd" | awk '{ printf "%s", toupper($1) }')
check "dump beside a text" equal "$digits" "$(tr -d '\n' <"$dir/p4")"
run text "$dir/missing"
fails "text to draw that is missing"
run text ""
fails "text to draw without a name"
run text "$dir"
fails "folder as the text to draw"
status=0
"$tool" text <&- >"$dir/out" 2>"$dir/err" || status=$?
fails "text to draw on closed standard input"
status=0
"$tool" text "$dir/p4" >&- 2>"$dir/err" || status=$?
fails "drawing on closed standard output"
status=0
"$tool" --text "$dir/text" "$scripts/p1.txt" >&- 2>"$dir/err" || status=$?
fails "closed standard output with a text"
check "no answer in the text" equal "$(grep -c '^0' "$dir/text" || true)" 0
status=0
printf 'frob\n' | "$tool" --text "$dir/text" >"$dir/out" 2>&- || status=$?
check "no message in the text" equal "$(cat "$dir/text")" ""
status=0
"$tool" "$scripts/p1.txt" >&- 2>"$dir/err" || status=$?
fails "closed standard output"
status=0
"$tool" --vcd "$dir/vcd" "$scripts/p1.txt" >&- 2>"$dir/err" || status=$?
fails "closed standard output with a dump"
check "no answer in the dump" equal "$(sed -n '/^0 /p' "$dir/vcd")" ""
status=0
"$tool" <&- >"$dir/out" 2>"$dir/err" || status=$?
fails "closed standard input"
status=0
"$tool" "$dir/missing" >"$dir/out" 2>&- || status=$?
check "closed standard error" equal "$status" 1
printf 'run 0 00\nfrob\n' | "$tool" --vcd "$dir/vcd" >"$dir/out" 2>&- || true
check "no message in the dump" equal "$(sed -n '/pl022:/p' "$dir/vcd")" ""
{
    status=0
    echo 'pair 200000' | "$tool" 2>"$dir/err" || status=$?
    echo "$status" >"$dir/status"
} | :
status=$(cat "$dir/status")
fails "reader that went away"
if [ -c /dev/full ]; then
    status=0
    "$tool" "$scripts/p1.txt" >/dev/full 2>"$dir/err" || status=$?
    fails "full standard output"
    status=0
    "$tool" --diagram "$scripts/wired.txt" >/dev/full 2>"$dir/err" || status=$?
    fails "full standard output with diagrams"
    status=0
    "$tool" --help >/dev/full 2>"$dir/err" || status=$?
    fails "full standard output for --help"
    run --vcd /dev/full "$scripts/p1.txt"
    fails "full dump"
    run --text /dev/full "$scripts/p1.txt"
    fails "full text"
    status=0
    "$tool" text "$dir/p4" >/dev/full 2>"$dir/err" || status=$?
    fails "full standard output for a drawing"
    printf 'pair 30000\nrun 0 00\nr 0\n' >"$dir/script"
    run --vcd /dev/full "$dir/script"
    fails "full dump of a bad script"
fi

# ---------------------------------------------------------------- judge, difference

. "$(dirname "$0")/test_judge.sh"

# ---------------------------------------------------------------- fuzz

# Scripts of valid commands, and the same with some bytes or words changed. The random
# numbers are made here, so that they are the same under every awk.
mkdir "$dir/fuzz"
awk -v seed="$seed" -v dir="$dir/fuzz" '
function random(n) {
    state = (state * 1664525 + 1013904223) % 4294967296
    return int(state / 4294967296 * n)
}
function pick(list, n) { n = split(list, item, " "); return item[random(n) + 1] }
function hex(n) { return sprintf("%x", n) }
# Kind 4: a clock under a FSS that falls once, so that Microwire slaves get through a frame.
function recording(n, kind, text, level, k) {
    kind = random(5)
    level = random(8)
    for (k = 0; k < n; k++) {
        if (kind == 1) level = random(8)
        if (kind == 2) level = (int(k / 7) % 2) + 4 * (int(k / 14) % 2)
        if (kind == 3 && random(6) == 0) level = random(8)
        if (kind == 4) level = k < 2 ? 2 : int(k / 2) % 2 + 4 * random(2)
        text = text level
    }
    if (random(40) == 0) text = text pick("8 9 a f")
    return text == "" ? "-" : text
}
function setting(d, kind) {
    kind = random(12)
    if (kind < 2) return "w " d " 0 " pick(formats)
    if (kind < 4) return "w " d " 10 " pick("2 2 4 6 c 3 0")
    if (kind < 7) return "w " d " 4 " pick("0 2 2 3 4 6 6 e 7 1 a")
    if (kind < 10) return "w " d " 8 " hex(random(65536))
    if (kind == 10) return "w " d " " pick("14 20 24") " " random(16)
    return "w " d " " hex(4 * random(1100)) " " hex(random(4294967296))
}
# Enabled devices, mostly slaves: single settings seldom come to that.
function set_up(d) {
    return "w " d " 10 2\nw " d " 0 " pick(formats) "\nw " d " 4 " pick("2 6 6 6 e")
}
# A right recording of four bits, or a part of it, with the settings of one.
function judging(digits, at) {
    digits = pick("0450145010aa 0541054100aa ba54105410 ba5410543210541054 450145010145014589898989898aa")
    at = random(length(digits) + 1)
    if (random(3) == 0) digits = substr(digits, 1, at) recording(1 + random(9)) substr(digits, at + 2)
    return "judge " pick("3 83 13 13 23 43 2 33 10013") " " pick("2 2 2 3 4 1 102") " " digits
}
function command(d, kind) {
    if (random(30) == 0) return judging()
    d = random(2)
    kind = random(20)
    if (kind < 7) return setting(d)
    if (kind == 7) return stop(d)
    if (kind < 11) return "r " d " " pick("0 4 8 8 8 c 10 14 18 1c 20 24 28 fe0 ffc 1000 6")
    if (kind < 14) return "run " d " " recording(random(90))
    if (kind == 14) return "idle " d " " recording(random(300))
    if (kind < 18) return "pair " random(200)
    if (kind == 18) return "dump " d
    return random(4) ? "dump " d : "reset " d edition()
}
# As a word of its own, or none; 0 and 3 are refused.
function edition() { return random(3) ? " " pick("1 2 2 2 0 3") : "" }
# A device that is stopped, mostly in a frame, and perhaps enabled again.
function stop(d, on) {
    on = pick("2 2 3 6 6 7")
    return "reset " d edition() "\nw " d " 10 2\nw " d " 0 " pick(formats) \
        "\nw " d " 8 " hex(random(65536)) "\nw " d " 8 5\nw " d " 4 " on "\nrun " d " " recording(4 + random(40)) \
        "\nw " d " 4 " (on - 2) "\nrun " d " " recording(random(12)) "\nw " d " 0 " pick(formats) "\ndump " d \
        (random(2) ? "\nw " d " 4 " on "\nrun " d " " recording(random(40)) : "") "\ndump " d
}
# Words arrive and nobody reads: a master in loopback or not, or a slave that is clocked.
function overrun(d, on, text, n) {
    on = pick("2 3 3 6")
    text = "w " d " 4 " (on - 2) "\nw " d " 10 2\nw " d " 0 " pick(few_cycles) "\nw " d " 4 " on
    for (n = random(8); n >= 0; n--) text = text "\nw " d " 8 " hex(random(4) ? random(65536) : 0)
    return text "\n" pick("run idle run") " " d " " recording(100 + random(300))
}
function mutated(line, at, kind) {
    kind = random(9)
    at = random(length(line) + 1)
    if (kind == 0) return substr(line, 1, at)
    if (kind == 1) return substr(line, 1, at) sprintf("%c", 1 + random(255)) substr(line, at + 1)
    if (kind == 2) return substr(line, 1, at) substr(line, at + 2)
    if (kind == 3) return line " " pick("0 - f ffffffff 99999999999 #")
    if (kind == 4) return substr(line, at + 1) line
    if (kind == 5) return toupper(line)
    if (kind == 6) return "\t" line "\r"
    if (kind == 7) return "# " line
    return pick("run idle pair r w reset dump 0") " " line
}
BEGIN {
    state = seed
    formats = "3 7 f 83 c7 43 8f 13 1f 17 23 27 2f 187 587 507 547 5c7 517 2 30"
    for (file = 1; file <= 400; file++) {
        name = sprintf("%s/%03d", dir, file)
        count = 10 + random(30)
        broken = random(4) ? random(4) : 0
        print "reset 0" edition() "\nreset 1" edition() "\n" set_up(0) "\n" set_up(1) >(name ".valid")
        for (n = 0; n < count; n++) {
            line = command()
            print line >(name ".valid")
            if (broken && random(12) == 0) line = mutated(line)
            if (random(60) == 0) printf "%c%c\n", 0, random(256) >(name ".mutated")
            printf "%s%s", line, (n + 1 < count || random(3)) ? "\n" : "" >(name ".mutated")
        }
        close(name ".valid")
        close(name ".mutated")
    }
    few_cycles = "3 7 f 83 43 c7 13 1f 23 27"
    for (file = 1; file <= 40; file++) {
        name = sprintf("%s/%03d.overrun", dir, file)
        print "reset 0" edition() "\nreset 1" edition() >name
        for (n = 15 + random(15); n > 0; n--)
            print (random(3) ? overrun(random(2)) : random(2) ? "pair " (100 + random(200)) : command()) >name
        close(name)
    }
}'

# fuzzed FILE ARGUMENTS...: status 0, or 2 with a message. Too many cycles for --text are 1.
fuzzed() {
    script=$1
    shift
    run "$@" - <"$script"
    case $status in
    0) check "fuzz $script: no message" equal "$(cat "$dir/err")" "" ;;
    1) check "fuzz $script: too long" grep -qxF \
        "pl022: $dir/text: refused with 13: more than 4096 cycles" "$dir/err" ;;
    2) check "fuzz $script: message" grep -q '^pl022: stdin:[1-9][0-9]*: ' "$dir/err" ;;
    *) check "fuzz $script: status $status" false ;;
    esac
    fuzz=$((fuzz + 1))
}

# Read as a text a script is refused, since no command is one.
fuzzed_text() {
    run text <"$1"
    check "fuzz $1 as a text: status" equal "$status" 2
    check "fuzz $1 as a text: message" grep -q '^pl022: stdin:[1-9][0-9]*:[1-9][0-9]*: refused with 1[78]: ' "$dir/err"
    fuzz=$((fuzz + 1))
}
fuzz=0
end=$(($(date +%s) + fuzz_seconds))
for script in "$dir"/fuzz/*.mutated; do
    [ "$(date +%s)" -lt "$end" ] || break
    case $((fuzz % 6)) in
    0) fuzzed "$script" ;;
    1) fuzzed "$script" --diagram ;;
    2) fuzzed "$script" --vcd "$dir/vcd" ;;
    3) fuzzed "$script" --diagram --ascii --vcd "$dir/vcd" ;;
    4) fuzzed "$script" --vcd "$dir/vcd" --text "$dir/text" ;;
    5) fuzzed_text "$script" ;;
    esac
done

# The valid ones as one long script: answers, dump and diagrams against each other.
cat "$dir"/fuzz/*.valid >"$dir/all"
run "$dir/all"
cp "$dir/out" "$dir/answers"
check "valid scripts: status" equal "$status" 0
check "valid scripts: an answer for each command" equal \
    "$(wc -l <"$dir/answers")" "$(wc -l <"$dir/all")"
pictures "valid scripts" "$dir/all" "$dir/answers"
texts "valid scripts" "$dir/all" "$dir/answers"
losses "valid scripts" "$dir/all" "$dir/answers"
like_other "valid scripts" "$dir/all" "$dir/answers"
for script in "$dir"/fuzz/0[0-4]?.valid; do
    run "$script"
    cp "$dir/out" "$dir/answers"
    texts "$script" "$script" "$dir/answers"
    like_other "$script" "$script" "$dir/answers"
done

# Scripts in which many words are lost.
for script in "$dir"/fuzz/*.overrun; do
    run "$script"
    cp "$dir/out" "$dir/answers"
    check "$script: status" equal "$status" 0
    losses "$script" "$script" "$dir/answers"
    like_other "$script" "$script" "$dir/answers"
done
check "many words were lost" [ "$lost" -ge 300 ]

echo "tool: $checks checks, $failures failed;" \
    "5 recordings, $vectors vectors, $bad_scripts bad scripts, $lines scripts with known text," \
    "$drawings drawn texts, $refused refused ones, $overruns scripts with known lost words," \
    "$lost lost lines, $own own recordings judged, $judged files accepted, $verdicts refused," \
    "$compared_texts differences, $troubles files that are no recording, $damaged damaged dumps," \
    "$files file failures," \
    "$fuzz fuzzed scripts (seed $seed), $(wc -l <"$dir/all" | tr -d ' ') valid commands," \
    "$compared compared with another program"
[ "$failures" -eq 0 ]
