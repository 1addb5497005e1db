# Tests judge and difference of the tool; test.sh reads this file and has the functions.

# ---------------------------------------------------------------- the tool's own recordings

# Recordings of every format, phase, polarity, size and several lengths of a slot: a script that
# makes them, and the script that judges them with the answers that are due. The words are wider
# than what is sent of them.
awk -v list="$dir/own" '
function random(n) {
    state = (state * 1664525 + 1013904223) % 4294967296
    return int(state / 4294967296 * n)
}
function slots(format, b, n) {
    if (format == "0" || format == "4") return n * (2 * b + 4)
    if (format == "8" || format == "c") return 2 * b * n + 4
    if (format == "1" || format == "d") return 2 * b * n + 2
    return n * (2 * b + 18) + 3
}
function add(format, b, cpsr, scr, n, k, word, cut, words, cycles) {
    cr0 = sprintf("%x%s%x", scr, format, b - 1)
    cut = 2 ^ (format == "2" || format == "e" ? 8 : b)
    cycles = slots(format, b, n) * int(cpsr / 2) * (scr + 1)
    printf "reset 0\nw 0 10 %x\nw 0 0 %s\n", cpsr, cr0
    for (k = 0; k < 8; k++) {
        word = k >= n ? 0 : random(4) ? random(65536) : random(2) * 65535
        if (k < n) printf "w 0 8 %x\n", word
        words = words sprintf("%s%x", k ? "," : "", word % cut)
    }
    printf "w 0 4 2\nrun 0 %0" cycles "d\n", 0
    print cr0, sprintf("%x", cpsr), n, words, cycles >list
}
BEGIN {
    state = 7
    count = split("0 4 8 c 1 d 2 e", format, " ")
    for (f = 1; f <= count; f++)
        for (b = 4; b <= 16; b++) {
            add(format[f], b, 2 + random(2), 0, 1 + random(8))
            add(format[f], b, 4 + random(2), random(2), 1 + random(8))
            add(format[f], b, 2, 2 + random(4), f == 1 ? 8 : 1 + random(3))
        }
}' >"$dir/script"
run "$dir/script"
cp "$dir/out" "$dir/answers"
check "own recordings: status" equal "$status" 0
check "own recordings: nothing refused" equal "$(grep -vc '^0' "$dir/answers" || true)" 0
sed -n 's/^0 \(.*\)/\1/p' "$dir/answers" | paste -d ' ' "$dir/own" - >"$dir/own.digits"
awk '{ print "judge", $1, $2, $6 }' "$dir/own.digits" >"$dir/script"
awk '{ print 0, $3, $4 }' "$dir/own" >"$dir/want"
run "$dir/script"
check "own recordings: accepted with their words" same "$dir/want" "$dir/out"
like_other "own recordings" "$dir/script" "$dir/want"
own=$(wc -l <"$dir/own" | tr -d ' ')
check "own recordings: all settings" equal "$own" 312

# A proper beginning has its length; whole frames at SPH 0 are recordings themselves.
awk '{
    print "judge", $1, $2, substr($6, 1, $5 - 1)
    print "judge", $1, $2, substr($6, 1, int($5 / 3))
}' "$dir/own.digits" >"$dir/script"
awk '{
    format = substr($1, length($1) - 1, 1)
    frame = $5 / $3
    third = int($5 / 3)
    print "21", $5 - 1, "-"
    if ((format == "0" || format == "4") && third % frame == 0) {
        n = split($4, word, ",")
        answer = word[1]
        for (k = 2; k <= 8; k++) answer = answer "," (k <= third / frame ? word[k] : 0)
        print 0, third / frame, answer
    } else print "21", third, "-"
}' "$dir/own.digits" >"$dir/want"
run "$dir/script"
check "beginnings of own recordings" same "$dir/want" "$dir/out"
like_other "beginnings of own recordings" "$dir/script" "$dir/want"

# accepted NAME WORDS ARGUMENTS...: the words, separated by commas; nothing else is said.
accepted() {
    what=$1
    due=$2
    shift 2
    run judge "$@"
    check "$what: status" equal "$status" 0
    check "$what: accepted" equal "$(sed -n 's/^accepted: [1-9][0-9]* cycles, [1-8] words*: //p' "$dir/out")" "$due"
    check "$what: two lines" equal "$(wc -l <"$dir/out" | tr -d ' ')" 2
    check "$what: no message" equal "$(cat "$dir/err")" ""
    judged=$((judged + 1))
}
judged=0

# As files, which the tool itself wrote: as text and as a dump. Three settings of each size follow
# each other, the first with h 1: of every fifth all three are among them.
awk 'NR % 5 == 1' "$dir/own.digits" >"$dir/some"
while read -r cr0 cpsr number words cycles digits; do
    sent=$(echo "$words" | cut -d , -f "1-$number")
    {
        printf 'w 0 10 %s\nw 0 0 %s\n' "$cpsr" "$cr0"
        echo "$sent" | tr , '\n' | sed 's/^/w 0 8 /'
        printf 'w 0 4 2\npair %s\n' "$cycles"
    } >"$dir/script"
    run --text "$dir/text" --vcd "$dir/vcd" "$dir/script"
    check "own files $cr0 $cpsr: digits" equal "$(tr -d '\n' <"$dir/text" | tr A-F a-f)" "$digits"
    accepted "own text $cr0 $cpsr" "$sent" --cr0 "$cr0" --cpsr "$cpsr" "$dir/text"
    accepted "own dump $cr0 $cpsr" "$sent" --cr0 "$cr0" --cpsr "$cpsr" "$dir/vcd"
done <"$dir/some"
check "own files: as many as there should be" equal "$judged" 126

# A text as long as one can be: TI, one word of 7 bits, 16 slots of 256 cycles.
printf 'w 0 10 2\nw 0 0 ff16\nw 0 8 55\nw 0 4 2\npair 4096\n' >"$dir/script"
run --text "$dir/text" "$dir/script"
accepted "a text of 4,096 cycles" 55 --cr0 ff16 --cpsr 2 "$dir/text"
check "a text of 4,096 cycles: all of them" grep -q '^accepted: 4096 cycles, 1 word: ' "$dir/out"

# ---------------------------------------------------------------- verdicts

# window_of FILE: of a diagram in plain ASCII the first number above it, the digits of its
# cycles, and the number of the cycle that is marked, or "none".
window_of() {
    awk '
    function level(row, k, flat) {
        flat = substr(row, 2 * k, 1)
        return index("_.", flat) ? 0 : 1
    }
    /^  cycle/ { first = $2 }
    /^  CLK/ { clk = substr($0, 12) }
    /^  FSS/ { fss = substr($0, 12) }
    /^  TXD/ { txd = substr($0, 12) }
    /^  nSSPOE/ {
        oe = substr($0, 12)
        for (k = 1; 2 * k <= length(oe); k++)
            digits = digits substr("0123456789ABCDEF", \
                level(clk, k) + 2 * level(fss, k) + 4 * level(txd, k) + 8 * level(oe, k) + 1, 1)
    }
    /^ *\^\^$/ { mark = first + (length($0) - 11) / 2 - 1 }
    END { print first, digits, mark == "" ? "none" : mark }' "$1"
}

# shows NAME DIGITS CYCLE FROM [COLUMNS]: the last output draws these digits, the cycle within,
# marked or as the first one; as many as there are or as fit into the width, by fives.
shows() {
    grep '^ ' "$dir/out" >"$dir/diagram" || true
    read -r first drawn_digits mark <<END
$(window_of "$dir/diagram")
END
    check "$1: the diagram shows the recording" equal "$drawn_digits" \
        "$(echo "$2" | cut -c "$((first + 1))-$((first + ${#drawn_digits}))")"
    fit=$(((${5:-80} - 11) / 10 * 5))
    left=$((${#2} - first))
    check "$1: as many cycles as fit" equal "${#drawn_digits}" "$((left < fit ? left : fit))"
    if [ "$4" = around ]; then
        check "$1: the mark" equal "$mark" "$3"
        check "$1: a number before the mark" [ "$first" -le "$3" ]
    else
        check "$1: no mark" equal "$mark" none
        check "$1: the first cycle" equal "$first" "$3"
    fi
}

# refused_in NAME CR0 CPSR DIGITS CYCLE POSSIBLE: refused with 21, the first cycle that no list
# gives, and what could stand there. A cycle behind the last one says that it ends too early.
refused_in() {
    if [ -n "$4" ]; then echo "$4"; fi >"$dir/text"
    run judge --cr0 "$2" --cpsr "$3" --ascii "$dir/text"
    cp "$dir/out" "$dir/ascii"
    if [ "$5" -lt "${#4}" ]; then
        due="cycle $5 is $(echo "$4" | cut -c "$(($5 + 1))"): no list of one to eight words gives that there"
    elif [ "$5" -eq 0 ]; then
        due="the recording has no cycles"
    else
        due="the recording ends too early, after $5 cycles"
    fi
    check "$1: status" equal "$status" 1
    check "$1: verdict" equal "$(sed -n 2p "$dir/out")" "refused with 21: $due"
    check "$1: possible" equal "$(sed -n 3p "$dir/out")" "possible in cycle $5: $6"
    check "$1: no message" equal "$(cat "$dir/err")" ""
    [ -z "$4" ] || shows "$1" "$4" "$5" around
    run judge --cr0 "$2" --cpsr "$3" "$dir/text"
    ascii_of "$dir/out" >"$dir/got"
    check "$1: both drawings are one" same "$dir/ascii" "$dir/got"
    verdicts=$((verdicts + 1))
}
verdicts=0
stop='the end of the recording'

# Motorola, SPH 0, the word A; slots of one cycle and of two.
refused_in "SPH 0, FSS HIGH in slot 0" 3 2 A450145010AA 0 0
refused_in "SPH 0, no slot 0" 3 2 450145010AA 0 0
refused_in "SPH 0, first bit too late" 3 2 0050145010AA 2 1
refused_in "SPH 0, TXD changes in a bit" 3 2 0410145010AA 2 5
refused_in "SPH 0, CLK at SPO 1" 3 2 1541054101BB 0 0
refused_in "SPO 1, CLK at SPO 0" 43 2 0450145010AA 0 1
refused_in "SPH 0, lines of SPH 1" 3 2 0541054100AA 1 '0 or 4'
refused_in "SPH 0, TXD HIGH in an idle slot" 3 2 0450145010EA 10 A
refused_in "SPH 0, nSSPOE LOW in an idle slot" 3 2 0450145010A2 11 A
refused_in "SPH 0, FSS LOW between words" 3 2 0450145010000014501454AA 10 A
refused_in "SPH 0, one idle slot between words" 3 2 0450145010A0014501454AA 11 A
refused_in "SPH 0, an idle slot too many" 3 2 0450145010AAA0014501454AA 12 "0 or $stop"
refused_in "SPH 0, no idle slot at the end" 3 2 0450145010 10 A
refused_in "SPH 0, no second idle slot at the end" 3 2 0450145010A 11 A
refused_in "SPH 0, the beginning of a second word" 3 2 0450145010AA00 14 1
refused_in "SPH 0, h 2, a slot of one cycle" 3 4 004445500114455001100AAAA 4 5
refused_in "SPH 0, h 2, a slot of three cycles" 3 4 0004455001144550011000AAAA 3 0
refused_in "SPH 0, h 2, the last cycle missing" 3 4 00445500114455001100AAA 23 A
refused_in "no cycles" 3 2 '' 0 0

# The ninth word: at SPH 0 all cycles of eight words are leading; in the others the eighth word
# shows earlier that none follows.
sph0_8=$(copies 8 0450145010AA)
refused_in "SPH 0, a ninth word" 3 2 "${sph0_8}0450145010AA" 96 "$stop"
refused_in "SPH 0, a cycle behind eight words" 3 2 "${sph0_8}A" 96 "$stop"
refused_in "SPH 1, a ninth word" 83 2 "0$(copies 9 54105410)0AA" 65 0
refused_in "TI, a ninth word" 13 2 "BA$(copies 7 54105432)5410543210541054" 64 '1 or 5'
byte=4501450101450145
refused_in "Microwire, a ninth word" 23 2 "$(copies 9 "${byte}8989898989")8AA" 208 8

# SPH 1, TI and Microwire.
refused_in "SPH 1, FSS HIGH between words" 83 2 0541054100AA0105410544AA 12 "$stop"
refused_in "SPH 1, TXD falls with the clock" 83 2 0510054100AA 2 4
refused_in "SPH 1, no slot 2b+1" 83 2 054105410AA 9 '0 or 1 or 5'
refused_in "TI, nSSPOE LOW in slot 0" 13 2 3A54105410 0 B
refused_in "TI, an idle slot" 13 2 BA541054108 10 "$stop"
refused_in "TI, the last cycle missing" 13 2 BA5410541 9 0
refused_in "TI, a start of one slot" 13 2 BA541054301054105410 9 2
refused_in "TI, FSS LOW between words" 13 2 BA541054101054105410 10 "$stop"
refused_in "TI, nSSPOE HIGH in joined slots" 13 2 BA541054BA10541054 8 '1 or 3 or 5 or 7'
refused_in "Microwire, nSSPOE LOW in the wait" 23 2 "${byte}01898989898AA" 16 8
refused_in "Microwire, data bits missing" 23 2 "${byte}8989898AA" 23 9
refused_in "Microwire, a data bit too many" 23 2 "${byte}8989898989898AA" 27 A
refused_in "Microwire, no slot 18+2b" 23 2 "${byte}8989898989AA" 26 '0 or 4 or 8'

# The diagram stays within the width, and has the marked cycle in it, in the middle or as the last.
for columns in 40 41 79 80 81 132 1000; do
    for place in 30 95; do
        title="judge at $columns columns, cycle $place"
        wrong=$(echo "$sph0_8" | sed "s/./B/$((place + 1))")
        echo "$wrong" >"$dir/text"
        status=0
        COLUMNS=$columns "$tool" judge --cr0 3 --cpsr 2 --ascii "$dir/text" >"$dir/out" || status=$?
        check "$title: status" equal "$status" 1
        check "$title: width" awk -v columns="$columns" \
            '/^ / && length($0) > columns { exit 1 }' "$dir/out"
        shows "$title" "$wrong" "$place" around "$columns"
    done
done

# The first line says what the settings mean.
# means CR0 CPSR WORDS
means() {
    printf 'F\n' >"$dir/text"
    run judge --cr0 "$1" --cpsr "$2" "$dir/text"
    check "settings $1 $2" equal "$(sed -n 1p "$dir/out")" "CR0 $(echo "$1" | sed 's/^0x//'), CPSR $(echo "$2" | sed 's/^0x//'): $3"
}
means 3 2 'Motorola, SPO 0, SPH 0, b 4, h 1'
means 0x47 0x3 'Motorola, SPO 1, SPH 0, b 8, h 1'
means 8f 4 'Motorola, SPO 0, SPH 1, b 16, h 2'
means ffcf fe 'Motorola, SPO 1, SPH 1, b 16, h 32512'
means 1d4 a 'TI, b 5, h 10'
means 2b ff 'Microwire, b 12, h 127'

# 6 comes before 22, and that before 21. What is refused is no matter of the file.
# not_enabled CR0 CPSR REASON FILE
not_enabled() {
    run judge --cr0 "$1" --cpsr "$2" "$4"
    check "settings $1 $2: status" equal "$status" 1
    check "settings $1 $2: verdict" equal "$(cat "$dir/out")" \
        "refused with 6: no master can be enabled with CR0 $1 and CPSR $2: a write of $3"
    verdicts=$((verdicts + 1))
}
not_enabled 0 2 'this CR0 is refused with 6' "$dir/text"
not_enabled 2 2 'this CR0 is refused with 6' "$dir/text"
not_enabled 33 2 'this CR0 is refused with 6' "$dir/text"
not_enabled 10003 2 'this CR0 is refused with 4' "$dir/text"
not_enabled ffffffff ffffffff 'this CR0 is refused with 4' "$dir/text"
not_enabled 3 100 'this CPSR is refused with 4' "$dir/text"
not_enabled 3 0 'SSE with this CPSR, which reads 0, is refused with 6' "$dir/text"
not_enabled 3 1 'SSE with this CPSR, which reads 0, is refused with 6' "$dir/text"

# 65,536 cycles are judged: TI, one word of 7 bits, 16 slots of 4,096 cycles. One more is 22.
printf 'w 0 10 80\nw 0 0 3f16\nw 0 8 55\nw 0 4 2\npair 65536\n' >"$dir/script"
run --vcd "$dir/long" "$dir/script"
digits=$(sed -n 's/ .*//; 5p' "$dir/out")
accepted "65,536 cycles" 55 --cr0 3f16 --cpsr 80 "$dir/long"
run judge --cr0 3f16 --cpsr 80 --to 65535 "$dir/long"
check "65,535 of 65,536 cycles" equal "$(sed -n 2p "$dir/out")" \
    "refused with 21: the recording ends too early, after 65535 cycles"
# too_long NAME ARGUMENTS...
too_long() {
    what=$1
    shift
    run judge "$@"
    check "$what: status" equal "$status" 1
    check "$what: verdict" equal "$(sed 1d "$dir/out")" "refused with 22: the recording has more than 65536 cycles"
    verdicts=$((verdicts + 1))
}
too_long "65,537 cycles" --cr0 3f16 --cpsr 80 --to 65537 "$dir/long"
too_long "a dump up to the last possible time" --cr0 3f16 --cpsr 80 --to 18446744073709551615 "$dir/long"
too_long "the longest period that gives 65,537 cycles" --cr0 3 --cpsr 2 --to 18446744073709551615 --period 281474976710655 "$dir/long"
not_enabled 3 1 'SSE with this CPSR, which reads 0, is refused with 6' "$dir/long"
echo "pair 200000" >"$dir/script"
run --vcd "$dir/longer" "$dir/script"
too_long "a dump of 200,000 cycles" --cr0 3 --cpsr 2 "$dir/longer"
rm -f "$dir/longer"
printf 'judge 3f16 80 %s\njudge 3f16 80 %s0\njudge 3f16 1 %s0\njudge 3f06 80 %s0\n' \
    "$digits" "$digits" "$digits" "$digits" >"$dir/script"
run "$dir/script"
check "65,536 and 65,537 cycles in a script" equal "$(tr '\n' ';' <"$dir/out")" \
    '0 1 55,0,0,0,0,0,0,0;22 0 -;6 0 -;22 0 -;'

# ---------------------------------------------------------------- in a script

answers_are "judge in a script" 'judge 13 2 ba54105410\njudge 13 3 BA5410543210541054\njudge 13 2 -\n' \
    '0 1 a,0,0,0,0,0,0,0;0 2 a,5,0,0,0,0,0,0;21 0 -;'
answers_are "judge of 32 bits" 'judge ffffffff ffffffff 0\njudge 10013 2 0\njudge 13 102 0\njudge 0013 0002 b\n' \
    '6 0 -;6 0 -;6 0 -;21 1 -;'
answers_are "judge beside a device" \
    'w 0 10 2\nw 0 0 3\nw 0 8 a\njudge 3 2 0450145010aa\nw 0 4 2\nrun 0 000000000000\ndump 1\n' \
    '0;0;0;0 1 a,0,0,0,0,0,0,0;0;0 0450145010aa;cr0=0 cr1=0 cpsr=0 imsc=0 dmacr=0 tx= rx= ror=0 rt=0 rtcount=0 frame=0 lines=a;'
bad 1 'words, 3: expected judge CR0 CPSR DIGITS' 'judge 3 2\n'
bad 1 'words, 5: expected judge CR0 CPSR DIGITS' 'judge 3 2 0 0\n'
bad 1 "CR0 '0x3' is not hexadecimal" 'judge 0x3 2 0\n'
bad 1 "CPSR '-' is not hexadecimal" 'judge 3 - 0\n'
bad 1 "CPSR '100000000' is above 32 bits" 'judge 3 100000000 0\n'
bad 2 "'g' at place 2 of the recording" 'judge 3 2 -\njudge 3 2 0g\n'
bad 1 "unknown command 'judges': expected reset, r, w, run, idle, pair, dump or judge" 'judges 3 2 0\n'
printf 'judge 3 2 0450145010aa\n' >"$dir/script"
run --diagram --lost --text "$dir/text" --vcd "$dir/vcd" "$dir/script"
check "judge takes no time" equal "$(cat "$dir/out") $(cat "$dir/text")$(grep -c '^#' "$dir/vcd")" \
    '0 1 a,0,0,0,0,0,0,0 1'

# ---------------------------------------------------------------- dumps of other programs

# dump_of DIGITS [STEP [START]]: a dump of these cycles as another program might write it, a
# cycle every STEP units from START on.
dump_of() {
    awk -v digits="$1" -v step="${2-1}" -v start="${3-0}" 'BEGIN {
        print "$date today $end\n$timescale 100 ps $end\n$scope module top $end\n$scope module dut $end"
        print "$var wire 1 ! sclk $end\n$var reg 1 \" ss_n $end\n$var wire 1 # mosi $end\n$var wire 1 $ oe_n $end"
        print "$var wire 8 % data [7:0] $end\n$var real 64 & volts $end\n$upscope $end\n$upscope $end"
        print "$enddefinitions $end"
        split("! \" # $", id, " ")
        for (k = 1; k <= length(digits); k++) {
            n = index("0123456789ABCDEF", substr(digits, k, 1)) - 1
            printf "#%.0f\n", start + (k - 1) * step
            if (k == 1) print "$dumpvars"
            if (k % 3 == 1) print "b1010zx10 %\nr0.5 &"
            for (line = 1; line <= 4; line++) {
                level = int(n / 2 ^ (line - 1)) % 2
                if (k == 1 || level != before[line]) print level id[line]
                before[line] = level
            }
            if (k == 1) print "$end"
        }
        printf "#%.0f\n", start + length(digits) * step
    }'
}

# with PLACE LINE TEXT: the dump of P4 with a text before, behind or in place of a line.
with() {
    dump_of $P4 | awk -v place="$1" -v line="$2" -v text="$3" '
    $0 != line { print; next }
    place == "before" { print text }
    place != "for" { print }
    place != "before" { print text }'
}

P4=BA5410543210541054
ti='--cr0 13 --cpsr 2'
three='--fss ss_n --txd mosi --nsspoe oe_n'
wires="--clk sclk $three"

# takes NAME ARGUMENTS...: the dump is accepted as P4.
takes() {
    title=$1
    shift
    accepted "$title" a,5 $ti "$@" "$dir/vcd"
}

# says NAME LINE ARGUMENTS...: the dump is refused with this line.
says() {
    title=$1
    line=$2
    shift 2
    run judge $ti "$@" "$dir/vcd"
    check "$title: status" equal "$status" 1
    check "$title: verdict" equal "$(sed -n 2p "$dir/out")" "refused with 21: $line"
    verdicts=$((verdicts + 1))
}

dump_of $P4 >"$dir/vcd"
takes "other names" $wires
takes "names with scopes" --clk top.dut.sclk --fss dut.ss_n --txd mosi --nsspoe top.dut.oe_n
takes "whole file, by times" $wires --from 0 --to 18
accepted "options behind the file" a,5 "$dir/vcd" $wires --period 1 $ti
for given in '' -; do
    status=0
    "$tool" judge $ti $wires $given <"$dir/vcd" >"$dir/out" 2>"$dir/err" || status=$?
    check "dump from standard input '$given'" equal "$status $(sed -n 2p "$dir/out")" \
        '0 accepted: 18 cycles, 2 words: a,5'
done

# Times: a cycle of several units, a first time other than 0, levels that are read within a cycle.
dump_of $P4 10 >"$dir/vcd"
takes "ten units a cycle" $wires --period 10
takes "ten units a cycle, read in the middle" $wires --period 10 --from 5
takes "ten units a cycle, read at the end" $wires --period 10 --from 9 --to 180
takes "a part of a cycle at the end" $wires --period 10 --to 171
says "a cycle too few by --to" 'the recording ends too early, after 17 cycles' $wires --period 10 --to 170
says "no cycle by --to" 'the recording has no cycles' $wires --from 20 --to 20
says "no cycle behind the last time" 'the recording has no cycles' $wires --from 180
says "the time of a cycle" 'cycle 0 (time 80) is 3: no list of one to eight words gives that there' \
    $wires --period 10 --from 80 --ascii
shows "the part from a time on" "$(echo $P4 | cut -c 9-)" 0 around
dump_of $P4 10 1000000000000 >"$dir/vcd"
takes "a late first time" $wires --period 10
takes "huge times" $wires --period 10 --from 1000000000005
dump_of "AAAA${P4}888" 4 >"$dir/vcd"
takes "a part of a dump" $wires --period 4 --from 16 --to 88
dump_of B | sed 's/^#0$/#18446744073709551614/; s/^#1$/#18446744073709551615/' >"$dir/vcd"
says "the last times of all" 'the recording ends too early, after 1 cycle' $wires
says "the last times of all, with --to" 'the recording ends too early, after 1 cycle' $wires --to 18446744073709551615
says "the last time of all" 'the recording has no cycles' $wires --from 18446744073709551615
says "the longest period" 'the recording ends too early, after 1 cycle' \
    $wires --period 18446744073709551615 --from 18446744073709551614

# The last time of a file ends its last cycle; --to may lie behind it.
dump_of $P4 | sed '$d' >"$dir/vcd"
says "no time behind the last change" 'the recording ends too early, after 17 cycles' $wires
takes "no time behind the last change, with --to" $wires --to 18
dump_of B | sed '/^#1$/d' >"$dir/vcd"
says "one time" 'the recording has no cycles' $wires
dump_of B | sed '/^#/d' >"$dir/vcd"
says "no time" 'the recording has no cycles' $wires
says "no time, with --to" 'cycle 1 (time 1) is B: no list of one to eight words gives that there' $wires --to 2

# Levels before the first time, more than one dump; comments, line ends, blanks.
with for '#0' '' >"$dir/first"
awk '{ print } $0 == "$end" && !n++ { print "#0\n#0" }' "$dir/first" >"$dir/vcd"
takes "levels before the first time" $wires
takes "levels before the first time, from it on" $wires --from 0
awk '{ print } $0 == "$end" && !n++ { print "#5" }' "$dir/first" | sed 's/^#[1-4]$//' >"$dir/vcd"
says "levels before a late first time" 'cycle 1 (time 1) is B: no list of one to eight words gives that there' \
    $wires --from 0
with behind '#8' '$comment #99 0! x $end
$dumpall
1!
1"
0#
0$
$end' >"$dir/vcd"
takes "a comment and a second dump" $wires
with before '$enddefinitions $end' '$comment $var wire 1 ! oe_n end $end' >"$dir/vcd"
takes "a comment among the declarations" $wires
with behind '#18' 'x!
$dumpoff
x$
$end
$vcdclose #20 $end' >"$dir/vcd"
takes "unknown levels behind the last cycle" $wires
dump_of $P4 | awk '{ printf "%s\r\n", $0 }' >"$dir/vcd"
takes "line ends CR LF" $wires
for blank in ' ' '\t' '\f'; do
    dump_of $P4 | tr '\n' "$blank" >"$dir/vcd"
    takes "one line, blank '$blank'" $wires
done
{ printf '\n \t\r\n'; dump_of $P4; } >"$dir/vcd"
takes "white space before the first word" $wires
dump_of $P4 | sed -e 's/^\([01]\)!$/b\1 !/' -e 's/^\([01]\)#$/B\1  #/' >"$dir/vcd"
takes "bits as vectors" $wires

# Names: an index, several names of one wire, several wires of one name.
dump_of $P4 | sed 's/ sclk \$end/ sclk [0] $end/; s/ mosi \$end/ mosi[0:0] $end/' >"$dir/vcd"
takes "names with an index" $wires
takes "names with an index that is given" --clk 'sclk[0]' --fss ss_n --txd 'dut.mosi[0:0]' --nsspoe oe_n
with before '$var wire 1 ! sclk $end' '$var wire 1 ! clock $end' >"$dir/vcd"
takes "two names of one wire" $wires
takes "the other of two names of one wire" --clk clock $three
with before '$enddefinitions $end' '$scope module pad $end
$var wire 1 ! sclk $end
$upscope $end' >"$dir/vcd"
takes "one wire in two scopes" $wires
with before '$enddefinitions $end' '$scope module pad $end
$var wire 1 x sclk $end
$upscope $end' >"$dir/vcd"
takes "two wires of one name, told apart" --clk dut.sclk $three
with before '$enddefinitions $end' '$var wire 1 ! dut.sclk $end
$scope module pad $end
$scope module top $end
$scope begin $end
$scope module dut $end
$var wire 1 x sclk $end' >"$dir/vcd"
takes "a whole path that is the end of another" --clk top.dut.sclk $three
with before '$enddefinitions $end' "$(copies 256 '$scope module m $end ')" >"$dir/vcd"
takes "256 scopes within each other" $wires

# ---------------------------------------------------------------- files that are no recording

# trouble NAME PLACE WORDS ARGUMENTS...: status 2, one message with the place and the words, and
# no answer.
trouble() {
    title=$1
    place=$2
    words=$3
    shift 3
    run "$@"
    check "$title: status $status" equal "$status" 2
    check "$title: one message" equal "$(wc -l <"$dir/err" | tr -d ' ')" 1
    check "$title: place" grep -qF "pl022: $place: " "$dir/err"
    check "$title: words" grep -qF -- "$words" "$dir/err"
    check "$title: no answer" equal "$(cat "$dir/out")" ""
    troubles=$((troubles + 1))
}
troubles=0

# wrong_dump LINE WORDS ARGUMENTS...: the dump is wrong in this line.
wrong_dump() {
    place=$1
    words=$2
    shift 2
    trouble "dump with '$words'" "$dir/vcd:$place" "$words" judge $ti "$@" "$dir/vcd"
}

# Names and declarations.
dump_of $P4 >"$dir/vcd"
wrong_dump 13 "no wire 'clk0' is declared up to here: --clk gives its name"
wrong_dump 13 "no wire 'nsspoe0' is declared up to here: --nsspoe gives its name" --clk sclk --fss ss_n --txd mosi
wrong_dump 13 "no wire 'clk' is declared" --clk clk $three
wrong_dump 13 "no wire 'lk' is declared" --clk lk $three
wrong_dump 13 "no wire 'ut.sclk' is declared" --clk ut.sclk $three
wrong_dump 13 "no wire 'top.sclk' is declared" --clk top.sclk $three
wrong_dump 13 "no wire 'x.top.dut.sclk' is declared" --clk x.top.dut.sclk $three
wrong_dump 9 "'data' is not one bit with levels" --clk data $three
wrong_dump 9 "'data[7:0]' is not one bit with levels" --clk 'data[7:0]' $three
wrong_dump 10 "'volts' is not one bit with levels" --clk volts $three
with before '$enddefinitions $end' '$scope module pad $end
$var event 1 e sclk $end' >"$dir/vcd"
wrong_dump 14 "another wire 'sclk' is declared in line 5: --clk with scopes, as in scope.sclk, tells them apart" $wires
takes "an event of the same name" --clk dut.sclk $three
wrong_dump 14 "'pad.sclk' is not one bit with levels" --clk pad.sclk $three
with before '$enddefinitions $end' '$var wire 8 e sclk $end' >"$dir/vcd"
wrong_dump 13 "'sclk' is not one bit with levels" $wires
with before '$upscope $end' '$var wire 1 x sclk $end' >"$dir/vcd"
wrong_dump 11 "another wire 'top.dut.sclk' is declared in line 5" --clk top.dut.sclk $three
with for '$var wire 1 ! sclk $end' '$var event 1 ! sclk $end' >"$dir/vcd"
wrong_dump 5 "'sclk' is not one bit with levels" $wires

# wrong_words LINE WORDS FORMAT: a dump given as for printf.
wrong_words() {
    printf "$3" >"$dir/vcd"
    wrong_dump "$1" "$2" $wires
}
wrong_words 1 "the file ends within the declarations: there is no \$enddefinitions" '$date $end'
wrong_words 2 "the file ends within the declarations" '$date $end\n'
wrong_words 1 "the file ends within a declaration: there is no \$end" '$'
wrong_words 3 "the file ends within a declaration: there is no \$end" '$comment x\ny\n'
wrong_words 1 "the file ends within \$var" '$var wire 1'
wrong_words 1 "the file ends within \$var" '$var wire 1 ! sclk'
wrong_words 2 "\$var needs a type, a number of bits, an identifier and a name" '$date $end\n$var $end'
wrong_words 1 "\$var needs a type" '$var wire $end'
wrong_words 1 "\$var needs a type" '$var wire 1 ! $end'
wrong_words 1 "the file ends within \$scope" '$scope module'
wrong_words 2 "'x' in \$scope: expected \$end" '$scope module top\nx $end'
wrong_words 3 "\$upscope without \$scope" '$scope module top $end\n$upscope $end\n$upscope $end'
wrong_words 1 "'x' in \$upscope: expected \$end" '$scope module top $end $upscope x'
wrong_words 2 "'#0': expected a declaration, \$var for example" '$date $end\n#0'
wrong_words 2 "'\$end': expected a declaration" '$date $end\n$end'
wrong_words 1 "'?x?': expected a declaration" '$date $end \001x\377'
wrong_words 1 "no wire 'sclk' is declared up to here" '$enddefinitions'
head='$var wire 1 ! sclk $end $var wire 1 " ss_n $end\n$var wire 1 # mosi $end $var wire 1 $ oe_n $end\n'
wrong_words 3 "the file ends within \$enddefinitions" "$head\$enddefinitions"
wrong_words 3 "'x' in \$enddefinitions: expected \$end" "$head\$enddefinitions x"
long=$(cycles 600)
wrong_words 1 "the names of the scopes are too long" "\$scope module $long \$end"
wrong_words 1 "the name of a wire is too long" "\$var wire 1 ! $long \$end"
wrong_words 1 "the identifier '000000000000000000000000...' is too long" "\$var wire 1 $long x \$end"
wrong_words 1 "more than 256 scopes within each other" "$(copies 300 '$scope module m $end ')"
wrong_words 1 "the names of the scopes are too long" "$(copies 20 "\$scope module $(cycles 400) \$end ")"
wrong_words 1 "the name of a wire is too long" "\$var wire 1 ! $(copies 30 "$(cycles 400) ")\$end"

# Times and changes of value.
body="$head\$enddefinitions \$end\n1! 1\" 0# 1\$\n"
wrong_words 5 "time '#x': expected # and a number of at most 64 bits" "$body#x\n"
wrong_words 5 "time '#': expected #" "$body#\n"
wrong_words 5 "time '#-1': expected #" "$body#-1\n"
wrong_words 5 "time '#1.5': expected #" "$body#1.5\n"
wrong_words 5 "time '#18446744073709551616': expected #" "$body#18446744073709551616\n"
wrong_words 5 "time '#99999999999999999999999...': expected #" "${body}#9999999999999999999999999999999999\n"
wrong_words 6 "time '#4' is before the one above it" "$body#5\n#4\n"
wrong_words 5 "'q!': expected a time or a change of value" "${body}q!\n"
wrong_words 5 "'1': expected a time or a change of value" "${body}1 !\n"
wrong_words 5 "'?!': expected a time or a change of value" "$body\000!\n"
wrong_words 6 "the file ends within a change of value" "${body}b101\n"
wrong_words 6 "the file ends within a comment: there is no \$end" "$body\$comment\n"
wrong_words 5 "wire 'sclk' is x at time 3, in cycle 2: expected 0 or 1" "$body#1 #3 x! #4\n"
wrong_words 6 "wire 'mosi' is Z at time 1, in cycle 0: expected 0 or 1" "$body#1\nZ# #2 #4\n"
wrong_words 5 "wire 'oe_n' is H at time 1, in cycle 0: expected 0 or 1" "${body}H\$ #1 #2\n"
wrong_words 5 "wire 'ss_n' is x at time 1, in cycle 0: expected 0 or 1" "${body}bx \" #1 #2\n"
wrong_words 5 "wire 'ss_n' is ? at time 1, in cycle 0: expected 0 or 1" "${body}b01 \" #1 #2\n"
wrong_words 5 "wire 'ss_n' is ? at time 1, in cycle 0: expected 0 or 1" "${body}r1 \" #1 #2\n"
wrong_words 5 "wire 'ss_n' is ? at time 1, in cycle 0: expected 0 or 1" "${body}b\033 \" #1 #2\n"
wrong_words 5 "wire 'ss_n' is ? at time 1, in cycle 0: expected 0 or 1" "${body}b\000 \" #1 #2\n"
wrong_words 4 "wire 'sclk' has no level yet at time 0, in cycle 0" "$head\$enddefinitions \$end\n#0 0\" 0# 0\$ #1\n"
wrong_words 5 "wire 'oe_n' has no level yet at time 7, in cycle 0" "$head\$enddefinitions \$end\n0! 0\" 0#\n#7 #8\n"
wrong_words 5 "wire 'sclk' is x at time 0, in cycle 0: expected 0 or 1" "${body}\$dumpoff x! \$end #0 #1\n"
printf "$body#0 x! #1 1! #2 x! #3\n" >"$dir/vcd"
says "unknown levels before --from" 'the recording ends too early, after 1 cycle' $wires --from 1 --to 2
wrong_dump 5 "wire 'sclk' is x at time 2, in cycle 1: expected 0 or 1" $wires --from 1
wrong_dump 5 "wire 'sclk' is x at time 3, in cycle 0: expected 0 or 1" $wires --from 3 --to 5

# Texts that are refused, and files that are neither text nor dump.
# wrong_text NUMBER PLACE FORMAT
wrong_text() {
    printf "$3" >"$dir/text"
    trouble "text with $1 at $2" "$dir/text:$2" "refused with $1: " judge $ti "$dir/text"
    check "text with $1 at $2: nor a dump" grep -q '; nor is it a VCD file, which begins with \$$' "$dir/err"
}
wrong_text 17 1:1 'judge 13 2 BA54105410\n'
wrong_text 17 1:1 '# a script\n'
wrong_text 17 1:1 ' BA54105410\n'
wrong_text 17 1:1 'ba54105410\n'
wrong_text 17 1:1 '\037\213\010\000'
wrong_text 17 1:11 'BA54105410\r\n'
wrong_text 17 2:1 'BA54105410\n$var\n'
wrong_text 18 1:1 '\n\nBA54105410\n'
wrong_text 18 2:1 'BA54105410\n\n'
wrong_text 19 1:11 'BA54105410'
wrong_text 13 1:4097 "$(idle_line 4097)\n"
trouble "a dump's option with a text" "$dir/p4" "expected a VCD file with --period, but this is a text" \
    judge $ti --period 1 "$dir/p4"
trouble "a dump's options with two texts" "$dir/p4" "expected a VCD file with --to, but this is a text" \
    difference --from 0 --to 3 "$dir/p4" "$dir/p4"

# Files that cannot be read.
for command in "judge $ti" "difference $dir/p4"; do
    trouble "$command of a missing file" "$dir/missing" "" $command "$dir/missing"
    trouble "$command of a folder" "$dir" "" $command "$dir"
    status=0
    "$tool" $command - <&- >"$dir/out" 2>"$dir/err" || status=$?
    check "$command of closed standard input: status" equal "$status" 2
    check "$command of closed standard input: message" grep -q '^pl022: stdin: .' "$dir/err"
    status=0
    "$tool" $command "$dir/p4" >&- 2>"$dir/err" || status=$?
    check "$command to closed standard output: status" equal "$status" 2
    if [ -c /dev/full ]; then
        status=0
        "$tool" $command "$dir/p4" >/dev/full 2>"$dir/err" || status=$?
        check "$command to a full file: status" equal "$status" 2
        check "$command to a full file: message" grep -q '^pl022: standard output: .' "$dir/err"
    fi
    [ ! -c /dev/zero ] || trouble "$command of /dev/zero" "/dev/zero:1:1" "refused with 17" $command /dev/zero
done

# ---------------------------------------------------------------- difference

# parts NAME DIGITS DIGITS STATUS LINES: two texts, or none for no cycles; the lines joined by
# semicolons, FIRST and SECOND for the names. The rest is drawn from its first cycle on.
parts() {
    for number in 1 2; do
        if [ "$number" = 1 ]; then digits=$2; else digits=$3; fi
        if [ -n "$digits" ]; then echo "$digits"; fi >"$dir/text.$number"
    done
    run difference --ascii "$dir/text.1" "$dir/text.2"
    cp "$dir/out" "$dir/ascii"
    check "$1: status" equal "$status" "$4"
    check "$1: no message" equal "$(cat "$dir/err")" ""
    check "$1: lines" equal "$(grep -v '^ ' "$dir/out" | sed -e "s|$dir/text.1|FIRST|g" -e "s|$dir/text.2|SECOND|g" | tr '\n' ';')" "$5"
    if [ "$4" = 1 ]; then
        start=$(sed -n 's/^the rest of .*, from cycle \([0-9]*\) on: .*/\1/p' "$dir/out")
        if grep -q '^the rest of .*text.2,' "$dir/out"; then digits=$3; else digits=$2; fi
        shows "$1" "$digits" "$start" from
    fi
    run difference "$dir/text.1" "$dir/text.2"
    ascii_of "$dir/out" >"$dir/got"
    check "$1: both drawings are one" same "$dir/ascii" "$dir/got"
    compared_texts=$((compared_texts + 1))
}
compared_texts=0
parts "equal recordings" $P4 $P4 0 'no difference in 18 cycles;'
parts "no cycles" '' '' 0 'no difference in 0 cycles;'
parts "first longer" $P4 BA541054 1 'no difference in 8 cycles, but FIRST goes on;the rest of FIRST, from cycle 8 on: 10 cycles;'
parts "second longer" BA541054 $P4 1 'no difference in 8 cycles, but SECOND goes on;the rest of SECOND, from cycle 8 on: 10 cycles;'
parts "second has no cycles" B '' 1 'no difference in 0 cycles, but FIRST goes on;the rest of FIRST, from cycle 0 on: 1 cycle;'
parts "first has no cycles" '' B 1 'no difference in 0 cycles, but SECOND goes on;the rest of SECOND, from cycle 0 on: 1 cycle;'
parts "equally long" BA541054 BA541055 1 'cycle 7 is 4 in FIRST and 5 in SECOND;the rest of FIRST, from cycle 7 on: 1 cycle;'
parts "first cycle" 0000 F000 1 'cycle 0 is 0 in FIRST and F in SECOND;the rest of FIRST, from cycle 0 on: 4 cycles;'
parts "several differences" 0123456789 0153450789 1 'cycle 2 is 2 in FIRST and 5 in SECOND;the rest of FIRST, from cycle 2 on: 8 cycles;'
parts "a difference, second longer" 0123 01F3AA 1 'cycle 2 is 2 in FIRST and F in SECOND;the rest of SECOND, from cycle 2 on: 4 cycles;'
parts "a difference, first longer" 0123AA 01F3 1 'cycle 2 is 2 in FIRST and F in SECOND;the rest of FIRST, from cycle 2 on: 4 cycles;'
parts "far behind" "$(idle_line 4000)B" "$(idle_line 4002)" 1 \
    'cycle 4000 is B in FIRST and A in SECOND;the rest of SECOND, from cycle 4000 on: 2 cycles;'

# Dumps against texts, and two dumps; an option is for both, or is given for each.
difference_is() {
    title=$1
    due=$2
    shift 2
    run difference "$@"
    check "$title: status" equal "$status" "${due%% *}"
    check "$title: first line" equal "$(sed -n 1p "$dir/out" | sed -e "s|$dir/||g")" "${due#* }"
    compared_texts=$((compared_texts + 1))
}
run --vcd "$dir/own.vcd" "$scripts/p4.txt"
dump_of $P4 10 >"$dir/vcd"
difference_is "own dump and text" '0 no difference in 18 cycles' "$dir/own.vcd" "$dir/p4"
difference_is "text and own dump" '0 no difference in 18 cycles' "$dir/p4" "$dir/own.vcd"
difference_is "text and dump" '0 no difference in 18 cycles' $wires --period 10 "$dir/p4" "$dir/vcd"
difference_is "a dump and itself" '0 no difference in 180 cycles' $wires "$dir/vcd" "$dir/vcd"
difference_is "two dumps" '0 no difference in 18 cycles' "$dir/own.vcd" "$dir/vcd" --clk clk0 --clk sclk \
    --fss fss0 --fss ss_n --txd txd0 --txd mosi --nsspoe nsspoe0 --nsspoe oe_n --period 1 --period 10
difference_is "parts of two dumps" '0 no difference in 4 cycles' $wires --period 10 --from 40 --from 100 --to 80 --to 140 \
    "$dir/vcd" "$dir/vcd"
difference_is "a dump with a part of itself" '1 cycle 0 is B in vcd and 3 in vcd' $wires --period 10 --from 0 --from 80 \
    "$dir/vcd" "$dir/vcd"
check "the time in a dump" grep -q 'from cycle 0 (time 0) on: 18 cycles' "$dir/out"
status=0
"$tool" difference "$dir/p4" - <"$dir/own.vcd" >"$dir/out" 2>"$dir/err" || status=$?
check "difference with standard input" equal "$status $(cat "$dir/out")" '0 no difference in 18 cycles'
trouble "a dump too long to compare" "$dir/long" "more than 65536 cycles: expected no more" \
    difference --to 65537 "$dir/long" "$dir/p4"
difference_is "a long dump with a part of itself" '1 no difference in 60000 cycles, but long goes on' \
    --to 65536 --to 60000 "$dir/long" "$dir/long"
rm -f "$dir/long"

# ---------------------------------------------------------------- usage

usage judge "$dir/p4"
usage judge --cr0 13 "$dir/p4"
usage judge --cpsr 2 "$dir/p4"
usage judge --cr0 --cpsr 2 "$dir/p4"
usage judge --cr0 13 --cpsr
usage judge --cr0 13 --cpsr '' "$dir/p4"
usage judge --cr0 0x --cpsr 2 "$dir/p4"
usage judge --cr0 1g --cpsr 2 "$dir/p4"
usage judge --cr0 -3 --cpsr 2 "$dir/p4"
usage judge --cr0 100000000 --cpsr 2 "$dir/p4"
usage judge --cr0 13 --cpsr 2 --cr0 13 "$dir/p4"
usage judge $ti "$dir/p4" "$dir/p4"
usage judge $ti - -
usage judge $ti --lost "$dir/p4"
usage judge $ti --diagram "$dir/p4"
usage judge $ti --vcd "$dir/a" "$dir/p4"
usage judge $ti --text "$dir/a" "$dir/p4"
usage judge $ti --frob "$dir/p4"
usage judge $ti --clk
usage judge $ti --clk '' "$dir/vcd"
usage judge $ti --clk sclk --clk sclk "$dir/vcd"
usage judge $ti --period 0 "$dir/vcd"
usage judge $ti --period 0x10 "$dir/vcd"
usage judge $ti --period 1.5 "$dir/vcd"
usage judge $ti --period -1 "$dir/vcd"
usage judge $ti --period 18446744073709551616 "$dir/vcd"
usage judge $ti --from '' "$dir/vcd"
usage judge $ti --from x "$dir/vcd"
usage judge $ti --from 10 --to 9 "$dir/vcd"
usage difference
usage difference "$dir/p4"
usage difference "$dir/p4" "$dir/p4" "$dir/p4"
usage difference - -
usage difference --cr0 13 "$dir/p4" "$dir/p4"
usage difference --lost "$dir/p4" "$dir/p4"
usage difference --clk a --clk b --clk c "$dir/vcd" "$dir/vcd"
usage difference --from 10 --from 0 --to 5 "$dir/vcd" "$dir/vcd"
usage --cr0 13 "$scripts/p1.txt"
usage --period 1 "$scripts/p1.txt"
usage text --clk a "$dir/p4"
run judge --help
check "judge --help" equal "$status" 0
check "judge --help: options" grep -q '^  --period N ' "$dir/out"

# Files with the names of the commands.
for command in judge difference; do
    cp "$scripts/p4.txt" "$dir/names/$command"
    named "a script with the name $command" "./$command"
    named "a script with the name $command behind --" -- "$command"
    check "a script with the name $command: answers" equal "$(sed -n '$p' "$dir/out")" '0 ba5410543210541054'
    cp "$dir/p4" "$dir/names/$command"
    named "a recording with the name $command" judge $ti "$command"
    named "a recording with the name $command beside one with the name of an option" difference "$command" -- --ascii
done

# ---------------------------------------------------------------- the pages

# A block of a page that begins with a command shows what the command prints.
top=$(cd "$(dirname "$0")/../.." && pwd)
run --vcd "$dir/wired.vcd" "$scripts/wired.txt"
blocks=0
if [ -e "$top/docs/JUDGE.md" ]; then
    awk -v dir="$dir" '
    /^```/ { inside = !inside; number = ""; next }
    !inside { next }
    number == "" && /^pl022 (judge|difference) / && !/\[/ {
        number = ++count
        print >(dir "/block." number)
        next
    }
    number != "" { print >(dir "/shown." number) }
    ' "$top/docs/JUDGE.md" "$top/docs/SCRIPTS.md"
    for block in "$dir"/block.*; do
        command=$(sed -e 's/^pl022 //' -e "s| wired.vcd| $dir/wired.vcd|" "$block")
        (cd "$top" && "$tool_path" $command) >"$dir/out" 2>"$dir/err" || true
        check "documentation: $command" same "$dir/shown.${block##*.}" "$dir/out"
        blocks=$((blocks + 1))
    done
    check "documentation: blocks" equal "$blocks" 10

    # The table of right recordings, and the files it names.
    grep '^| .*\](\.\./examples/recordings/[a-z0-9]*\.txt) |$' "$top/docs/JUDGE.md" | tr -d '`' >"$dir/table"
    check "documentation: right recordings" equal "$(wc -l <"$dir/table" | tr -d ' ')" 4
    while IFS='|' read -r _ _ settings words digits link _; do
        file=$top/examples/recordings/$(echo "$link" | sed 's/.*recordings.\(.*\)) *$/\1/')
        check "documentation: recording in $link" equal "$(tr '\n' ' ' <"$file" | tr -d ' ')" "$(echo "$digits" | tr -d ' ')"
        accepted "documentation: $link" "$(echo "$words" | tr -d ' ' | tr A-F a-f)" \
            --cr0 "$(echo "$settings" | sed 's/ *\(.*\),.*/\1/')" --cpsr "$(echo "$settings" | sed 's/.*, *\([^ ]*\) */\1/')" "$file"
    done <"$dir/table"
fi

# ---------------------------------------------------------------- damaged dumps

# Dumps with some bytes, words or lines changed: a verdict, or a message with a line. The random
# numbers are made here, so that they are the same under every awk.
mkdir "$dir/damaged"
dump_of $P4 2 >"$dir/vcd"
awk -v dir="$dir/damaged" '
function random(n) {
    state = (state * 1664525 + 1013904223) % 4294967296
    return int(state / 4294967296 * n)
}
function pick(list, n) { n = split(list, item, " "); return item[random(n) + 1] }
function damaged(line, at, kind) {
    kind = random(8)
    at = random(length(line) + 1)
    if (kind == 0) return substr(line, 1, at)
    if (kind == 1) return substr(line, 1, at) sprintf("%c", 1 + random(255)) substr(line, at + 1)
    if (kind == 2) return substr(line, 1, at) substr(line, at + 2)
    if (kind == 3) return line " " pick("$end $var $scope $upscope $comment $dumpoff #0 #99999999999999999999 x! b1 r 1")
    if (kind == 4) return pick("$end #18446744073709551615 #9999999 x! b $comment $enddefinitions") "\n" line
    if (kind == 5) return ""
    if (kind == 6) return line "\n" line
    return pick("$scope module a $end") line
}
{ text[NR] = $0 }
END {
    state = 22
    for (file = 1; file <= 120; file++) {
        name = sprintf("%s/%03d", dir, file)
        count = 1 + random(3)
        for (k = 0; k < count; k++) spot[1 + random(random(2) ? 14 : NR)] = 1
        last = random(4) ? NR : 1 + random(NR)
        for (k = 1; k <= last; k++) print (k in spot ? damaged(text[k]) : text[k]) >name
        for (k in spot) delete spot[k]
        close(name)
    }
}' "$dir/vcd"
damaged=0
damaged_judged=0
for file in "$dir"/damaged/*; do
    run judge $ti $wires --period 2 "$file"
    case $status in
    0 | 1)
        check "damaged $file: a verdict" grep -q '^accepted: \|^refused with 2[12]: ' "$dir/out"
        damaged_judged=$((damaged_judged + 1))
        ;;
    2) check "damaged $file: message" grep -q "^pl022: $file:[1-9][0-9]*:" "$dir/err" ;;
    *) check "damaged $file: status $status" false ;;
    esac
    damaged=$((damaged + 1))
done
check "damaged dumps: all" equal "$damaged" 120
check "damaged dumps: some with a verdict" [ "$damaged_judged" -gt 0 ]
check "damaged dumps: some with a message" [ "$damaged_judged" -lt "$damaged" ]
