#!/bin/sh
# Shows that the fuzz test notices faults: puts them between it and the library, one at a
# time, and demands that each is reported. Status 0: all were. PL022_ARCHIVE and BUILD as
# in run.sh.
set -eu

cd "$(dirname "$0")/.."
built=${BUILD:-target}/fuzz
mkdir -p "$built"
cc -std=c11 -Wall -Wextra -Wpedantic -Wconversion -Wshadow -Werror -g -O1 -Iinclude \
    -c -o "$built/faults.o" fuzz/faults.c
fuzz/build.sh "$built/with-faults" "$built/faults.o" \
    -Wl,--wrap=pl022_reset,--wrap=pl022_reset_edition,--wrap=pl022_read,--wrap=pl022_write \
    -Wl,--wrap=pl022_run,--wrap=pl022_run_to_idle,--wrap=pl022_pair_run \
    -Wl,--wrap=pl022_write_text,--wrap=pl022_read_text \
    -Wl,--wrap=pl022_judge,--wrap=pl022_difference

number=0
missed=0
while read -r fault; do
    number=$((number + 1))
    if FUZZ_FAULT=$number "$built/with-faults" "${FUZZ_SEED:-22}" 20 \
        >"$built/faults.out" 2>"$built/faults.err"; then
        notice=MISSED
        missed=$((missed + 1))
    else
        notice=$(grep -m 1 -e FAILED -e ERROR "$built/faults.err" || echo "MISSED, other end")
        case $notice in MISSED*) missed=$((missed + 1)) ;; esac
    fi
    printf '%2d %-50s %s\n' "$number" "$fault" "$notice"
done <<'END'
reset leaves a byte as it was
reset takes a record of 127 bytes
reset leaves edition 2 as it was
reset edition answers 20 where 10 is due
reset edition takes edition 3
reset edition cuts the edition to 8 bits
reset edition gives edition 1 for 2
reset edition changes the record though refused
read gives a word with a refusal
read of RIS changes the record
read looks at the byte behind the record
read looks at the byte before the record
read cuts the length to 32 bits
read of SR gives another flag
read of MIS gives another interrupt
read bounds control bits by the word size
read serves a record of edition 3
read serves a frame with SSE clear in edition 1
write changes the record though refused
write loses a bit of IMSC
write answers 9 for a sound record
write answers 1 where 9 is due
write leaves an unsound record
write takes CPSR while a frame goes on
write drops the frame of edition 2 with SSE
write of SSE begins anew while a frame goes on
run writes one byte behind the output
run writes one byte before the output
run looks at the byte behind the input
run looks at an input of no bytes
run changes the input
run gives an output byte above 15
run depends on hidden state
run depends on the number of cycles
run leaves the last output byte
run answers 12 where 11 is due
run changes the output though refused
run aborts
run changes the edition
run drops a frame with SSE clear in edition 2
run takes a word with SSE clear
run leaves a word behind a frame with SSE clear
run gives no count of its cycles
run hands up a lost word with a refusal
run hands up the last word of an earlier call
run hands up the first word lost for the last
run hands up the oldest word held
run hands up the newest word held
run counts words that were kept as lost
run hands up a lost word that is not cut
run misses the word lost in its last cycle
run counts one lost word whatever was lost
run loses no word while ROR is up
run loses no word with SSE clear
run to idle writes past its count
run to idle gives a count with a refusal
run to idle gives a count one too low
run to idle runs one cycle too many
run to idle counts a lost word with a refusal
run to idle misses the word lost in its last cycle
pair run writes one byte behind the second
pair run makes one cycle too many
pair run depends on the number of cycles
pair run changes a record though refused
pair run serves an unsound record
pair run hands up a lost word with a refusal
pair run gives the first's lost words for both
pair run exchanges the lost words
pair run adds up the lost words of both
pair run misses the word lost in its last cycle
pair run hands up the first word lost for the last
write text writes past its count
write text writes one byte behind the text
write text gives a count with a refusal
write text gives a count one too low
write text writes a lower-case digit
write text ends a line late
write text refuses 4,096 cycles
write text looks at the place behind the last
write text answers 15 where 14 is due
write text answers 16 where 15 is due
write text takes equal places
write text changes the text though refused
read text writes past its count
read text gives starts with a refusal
read text gives one start too few
read text gives another line start
read text takes a lower-case digit
read text takes CR LF as the end of a line
read text takes a text without last line feed
read text looks at the buffers first
read text looks past the place that decides
read text looks at the byte behind the text
read text changes the lines though refused
read text cuts the length to 32 bits
judge answers 22 where 6 is due
judge cuts CR0 to 16 bits
judge cuts CPSR to 8 bits
judge takes CPSR 1
judge refuses an odd CPSR
judge refuses 65,536 cycles with 22
judge looks at 65,537 cycles
judge cuts the length to 32 bits
judge gives a count with 6
judge looks at the byte behind the recording
judge looks at the byte before the recording
judge changes the recording
judge depends on hidden state
judge changes the words though refused
judge writes a ninth place
judge leaves a place behind the words
judge gives a word that is not cut
judge gives another word
judge gives the words in another order
judge gives one word too few
judge refuses eight words
judge accepts a recording that ends a cycle early
judge accepts cycles behind a right recording
judge looks at the low half of a byte only
judge does not look at nSSPOE
judge counts one leading cycle too few
judge counts one leading cycle too many
judge counts all cycles as leading
judge counts leading slots
judge counts no leading cycle behind eight words
difference gives the second of two equally long
difference gives a part of the shorter one
difference starts a cycle late
difference gives no rest past the shorter one
difference ends with the shorter one
difference looks at the low half of a byte only
difference looks at the byte behind the first
difference changes a recording
difference cuts the length to 32 bits
END
echo "faults: $number tried, $missed missed"
[ "$missed" -eq 0 ]
