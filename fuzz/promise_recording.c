#include "promise_recording.h"

#include <string.h>

#include "recording.h"
#include "report.h"

uint64_t recording_expected_refusal(const struct request *request, const struct outcome *outcome)
{
    if (request->call == CALL_DIFFERENCE) {
        return PL022_DONE;
    }
    if (!recording_enables(request->cr0, request->cpsr)) {
        return PL022_NOT_PERMITTED;
    }
    if (request->lent[ROLE_RECORDING].length > PL022_JUDGE_CYCLES) {
        return PL022_TOO_LONG;
    }
    return request->due.known ? request->due.refusal : outcome->refusal;
}

void recording_check_no_match(const struct request *request, const struct outcome *outcome)
{
    const struct bytes *recording = &request->lent[ROLE_RECORDING];
    const struct due *due = &request->due;

    report_unless(outcome->result <= recording->length,
                  "more cycles are leading than the recording has");
    report_unless(outcome->result >= due->least,
                  "fewer cycles are leading than those of a right recording");
    report_unless(!due->known || outcome->result == due->cycles,
                  "another number of cycles is leading");
    for (size_t n = 0; n < outcome->result; n++) {
        report_unless(recording->data[n] <= PL022_OUTPUT_MASK, "a byte above 15 is leading");
    }
}

void recording_check_accepted(const struct request *request, const struct outcome *outcome)
{
    static struct bytes made;
    const struct bytes *lent = &request->lent[ROLE_RECORDING];
    uint32_t bits = recording_sent_bits(request->cr0);
    size_t count = (size_t)outcome->result;
    uint16_t words[PL022_QUEUE_WORDS];

    report_unless(count >= 1 && count <= PL022_QUEUE_WORDS, "no list has so many words");
    report_unless(!request->due.known || count == request->due.cycles,
                  "another number of words was found");
    for (size_t n = 0; n < PL022_QUEUE_WORDS; n++) {
        words[n] = word_get(&outcome->after[ROLE_WORDS], n);
        report_unless(words[n] >> (n < count ? bits : 0) == 0,
                      "a word is not cut, or a place behind the words is not 0");
    }
    report_unless(recording_make(request->cr0, request->cpsr, words, count, &made)
                  && bytes_equal(&made, lent),
                  "the words that were found give another recording");
}

void recording_check_difference(const struct request *request, const struct outcome *outcome)
{
    const struct bytes *first = &request->lent[ROLE_RECORDING];
    const struct bytes *second = &request->lent[ROLE_RECORDING_2];
    const struct pl022_part *part = &outcome->part;
    bool of_second = second->length > first->length;
    size_t shorter = of_second ? first->length : second->length;
    size_t longer = of_second ? second->length : first->length;
    size_t start = 0;

    while (start < shorter && first->data[start] == second->data[start]) {
        start++;
    }
    report_unless(part->second == of_second, "the part is of the other recording");
    report_unless(part->start == start, "the part starts elsewhere");
    report_unless(part->length == longer - start, "the part does not end with its recording");
}

/* Cut to 32 bits, the length would be that of a recording that is accepted. */
void recording_judge_wide_lengths(uint8_t *bytes, size_t length)
{
    static const uint8_t right[] = {0xB, 0xA, 5, 4, 1, 0, 5, 4, 1, 0};
    uint16_t words[PL022_QUEUE_WORDS];
    size_t wide = length - PL022_RECORD_LENGTH + sizeof right;
    struct pl022_part part;

    memcpy(bytes, right, sizeof right);
    report_unless(pl022_judge(PL022_CR0_FRF_TI | 3, 2, right, sizeof right, words).refusal == PL022_DONE
                  && pl022_judge(PL022_CR0_FRF_TI | 3, 2, bytes, wide, words).refusal == PL022_TOO_LONG,
                  "a recording of more than 32 bits was cut");
    part = pl022_difference(bytes, wide, right, sizeof right);
    report_unless(part.second == 0 && part.start == sizeof right
                  && part.length == wide - sizeof right,
                  "the first of two recordings was cut to 32 bits");
    part = pl022_difference(right, sizeof right, bytes, wide);
    report_unless(part.second == 1 && part.start == sizeof right
                  && part.length == wide - sizeof right,
                  "the second of two recordings was cut to 32 bits");
}
