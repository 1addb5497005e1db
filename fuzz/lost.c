#include "lost.h"

#include <string.h>

#include "record.h"
#include "report.h"

uint64_t lost_words(const struct outcome *outcome)
{
    return outcome->lost[ROLE_RECORD].count + outcome->lost[ROLE_SECOND].count;
}

bool lost_nothing(const struct outcome *outcome)
{
    const struct pl022_lost *lost = outcome->lost;

    return lost_words(outcome) == 0 && lost[ROLE_RECORD].last == 0 && lost[ROLE_SECOND].last == 0;
}

void lost_add(struct pl022_lost *sum, const struct pl022_lost *later)
{
    sum->count += later->count;
    if (later->count > 0) {
        sum->last = later->last;
    }
}

bool lost_equal(const struct pl022_lost one[RECORD_ROLES],
                const struct pl022_lost other[RECORD_ROLES])
{
    return memcmp(one, other, RECORD_ROLES * sizeof one[0]) == 0;
}

void lost_check(const struct request *request, const struct outcome *outcome, enum role role)
{
    const struct pl022_lost *lost = &outcome->lost[role];
    const uint8_t *before = request->lent[role].data;
    const uint8_t *after = outcome->after[role].data;
    size_t held = before[PL022_RECORD_RX_COUNT];

    report_unless(lost->count <= call_ran(request, outcome), "more words were lost than cycles run");
    report_unless(lost->count > 0 || lost->last == 0, "a last word came though none was lost");
    report_unless(lost->last >> record_received_bits(before) == 0,
                  "a lost word is wider than those received");
    report_unless(lost->count == 0 || record_active(before), "a device that is not active lost a word");
    report_unless(after[PL022_RECORD_ROR] == (before[PL022_RECORD_ROR] != 0 || lost->count > 0),
                  "ROR does not agree with the words handed up as lost");
    report_unless(lost->count == 0 || after[PL022_RECORD_RX_COUNT] == PL022_QUEUE_WORDS,
                  "a word was lost although there was room");
    report_unless(after[PL022_RECORD_RX_COUNT] >= held
                  && memcmp(after + PL022_RECORD_RX_QUEUE, before + PL022_RECORD_RX_QUEUE,
                            2 * held) == 0,
                  "a run changed the words held");
}
