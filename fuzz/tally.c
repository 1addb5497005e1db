#include "tally.h"

#include <inttypes.h>
#include <stdio.h>

#include "lost.h"
#include "record.h"

enum { ROLES_OF_DEVICE = 2, SIZES = 16, RAW_BITS = 4 };

/* The formats, with Motorola's phases apart. */
enum { KINDS = FORMATS + 1 };

static uint64_t calls;
static uint64_t digest;
static uint64_t answers[CALLS][REFUSALS];
static uint64_t enabled_runs[FORMATS][ROLES_OF_DEVICE][SIZES];
static uint64_t arrivals[FORMATS][ROLES_OF_DEVICE];
static uint64_t takes[FORMATS][ROLES_OF_DEVICE];
static uint64_t ends[FORMATS][ROLES_OF_DEVICE];   /* frames that ended with SSE clear */
static uint64_t resumes[FORMATS][ROLES_OF_DEVICE]; /* frames in which SSE was set again */
static uint64_t overruns[FORMATS][ROLES_OF_DEVICE]; /* runs that lost words */
static uint64_t several[FORMATS][ROLES_OF_DEVICE];  /* runs that lost more than one */
static uint64_t overrun_calls[CALLS];
static uint64_t overrun_pairs;   /* pair runs in which both devices lost words */
static uint64_t overrun_stopped; /* runs that lost a word with SSE clear */
static uint64_t lost_zeros;      /* runs whose last lost word was 0 */
static uint64_t raw_seen[RAW_BITS];
static uint64_t full_texts[CALLS];
static uint64_t accepted[KINDS][PL022_QUEUE_WORDS + 1]; /* recordings, by number of words */
static uint64_t cut_short[KINDS];  /* recordings of which all cycles were leading */
static uint64_t wrong_later[KINDS]; /* of which some were */
static uint64_t full_recordings;   /* accepted ones with as many cycles as can be judged */
static uint64_t parts[2];          /* of the first, of the second recording */
static uint64_t equal_recordings;

static void tally_lost(const struct request *request, const struct outcome *outcome,
                       enum role role)
{
    const struct pl022_lost *lost = &outcome->lost[role];
    const uint8_t *before = request->lent[role].data;
    unsigned format = record_format(before);
    unsigned slave = (before[PL022_RECORD_CR1] & PL022_CR1_MS) != 0;

    if (lost->count > 0) {
        overruns[format][slave]++;
        several[format][slave] += lost->count > 1;
        overrun_stopped += record_stopped(before);
        lost_zeros += lost->last == 0;
    }
}

static void tally_run(const struct request *request, const struct outcome *outcome, enum role role)
{
    const uint8_t *before = request->lent[role].data;
    const uint8_t *after = outcome->after[role].data;
    unsigned format = record_format(before);
    unsigned slave = (before[PL022_RECORD_CR1] & PL022_CR1_MS) != 0;

    tally_lost(request, outcome, role);
    if (!record_enabled(before)) {
        ends[format][slave] += record_stopped(before) && !record_stopped(after);
        return;
    }
    enabled_runs[format][slave][record_dss(before)]++;
    arrivals[format][slave] += after[PL022_RECORD_RX_COUNT] > before[PL022_RECORD_RX_COUNT];
    takes[format][slave] += after[PL022_RECORD_TX_COUNT] < before[PL022_RECORD_TX_COUNT];
}

static void tally_write(const struct request *request)
{
    const uint8_t *record = request->lent[ROLE_RECORD].data;
    unsigned slave = (record[PL022_RECORD_CR1] & PL022_CR1_MS) != 0;

    if (request->offset == PL022_CR1 && (request->value & PL022_CR1_SSE) != 0
        && record_stopped(record)) {
        resumes[record_format(record)][slave]++;
    }
}

static unsigned kind_of(uint32_t cr0)
{
    uint32_t format = (cr0 & PL022_CR0_FRF_MASK) >> PL022_CR0_FRF_SHIFT;
    return format > 0 ? format + 1 : (cr0 & PL022_CR0_SPH) != 0;
}

static void tally_judge(const struct request *request, const struct outcome *outcome)
{
    size_t length = request->lent[ROLE_RECORDING].length;
    unsigned kind = kind_of(request->cr0);

    if (outcome->refusal == PL022_DONE) {
        accepted[kind][outcome->result]++;
        full_recordings += length == PL022_JUDGE_CYCLES;
    } else if (outcome->refusal == PL022_NO_MATCH && outcome->result > 0) {
        (outcome->result == length ? cut_short : wrong_later)[kind]++;
    }
}

static void tally_difference(const struct outcome *outcome)
{
    parts[outcome->part.second] += outcome->part.length > 0;
    equal_recordings += outcome->part.length == 0;
}

static void digest_number(uint64_t number)
{
    digest = (digest ^ number) * UINT64_C(0x100000001B3);
}

static void digest_outcome(enum call call, const struct outcome *outcome)
{
    digest_number((uint64_t)call << 8 | outcome->refusal);
    digest_number(outcome->result);
    digest_number(outcome->starts);
    for (unsigned role = 0; role < RECORD_ROLES; role++) {
        digest_number(outcome->lost[role].count);
        digest_number(outcome->lost[role].last);
    }
    digest_number(outcome->part.start);
    digest_number(outcome->part.length);
}

static void tally_runs(const struct request *request, const struct outcome *outcome)
{
    tally_run(request, outcome, ROLE_RECORD);
    if (request->call == CALL_PAIR_RUN) {
        tally_run(request, outcome, ROLE_SECOND);
    }
    overrun_calls[request->call] += lost_words(outcome) > 0;
    overrun_pairs += outcome->lost[ROLE_RECORD].count > 0 && outcome->lost[ROLE_SECOND].count > 0;
}

void tally_call(const struct request *request, const struct outcome *outcome)
{
    calls++;
    answers[request->call][outcome->refusal]++;
    digest_outcome(request->call, outcome);
    if (request->call == CALL_JUDGE) {
        tally_judge(request, outcome);
    }
    if (outcome->refusal != PL022_DONE) {
        return;
    }
    if (call_runs(request->call)) {
        tally_runs(request, outcome);
    } else if (request->call == CALL_WRITE) {
        tally_write(request);
    } else if (request->call == CALL_READ && request->offset == PL022_RIS) {
        for (unsigned bit = 0; bit < RAW_BITS; bit++) {
            raw_seen[bit] += outcome->result >> bit & 1;
        }
    } else if (call_lends(request->call, ROLE_TEXT)) {
        uint64_t cycles = request->call == CALL_WRITE_TEXT ? request->lent[ROLE_LINES].length
                                                           : outcome->result;
        full_texts[request->call] += cycles == PL022_TEXT_CYCLES;
    } else if (request->call == CALL_DIFFERENCE) {
        tally_difference(outcome);
    }
}

uint64_t tally_calls(void)
{
    return calls;
}

uint64_t tally_digest(void)
{
    uint64_t value = digest;
    digest = 0;
    return value;
}

static void print_formats(void)
{
    for (unsigned format = 0; format < FORMATS; format++) {
        printf("; FRF %u words received %" PRIu64 " as master %" PRIu64 " as slave"
               ", taken to be sent %" PRIu64 " and %" PRIu64
               ", frames ended with SSE clear %" PRIu64 " and %" PRIu64
               ", resumed %" PRIu64 " and %" PRIu64
               ", runs that lost words %" PRIu64 " and %" PRIu64
               ", more than one %" PRIu64 " and %" PRIu64,
               format, arrivals[format][0], arrivals[format][1], takes[format][0], takes[format][1],
               ends[format][0], ends[format][1], resumes[format][0], resumes[format][1],
               overruns[format][0], overruns[format][1], several[format][0], several[format][1]);
    }
}

static void print_lost(void)
{
    printf("; words lost in run %" PRIu64 ", run_to_idle %" PRIu64 ", pair_run %" PRIu64
           ", by both of a pair %" PRIu64 ", with SSE clear %" PRIu64 ", last of them 0 %" PRIu64,
           overrun_calls[CALL_RUN], overrun_calls[CALL_RUN_TO_IDLE], overrun_calls[CALL_PAIR_RUN],
           overrun_pairs, overrun_stopped, lost_zeros);
}

static void print_recordings(void)
{
    static const char *const names[KINDS] = {"SPH 0", "SPH 1", "TI", "Microwire"};

    for (unsigned kind = 0; kind < KINDS; kind++) {
        printf("; recordings of %s accepted with 1 word %" PRIu64 ", with 8 %" PRIu64
               ", cut short %" PRIu64 ", wrong later %" PRIu64, names[kind], accepted[kind][1],
               accepted[kind][PL022_QUEUE_WORDS], cut_short[kind], wrong_later[kind]);
    }
    printf("; recordings of %d cycles accepted %" PRIu64 "; parts of the first %" PRIu64
           ", of the second %" PRIu64 ", none %" PRIu64, PL022_JUDGE_CYCLES, full_recordings,
           parts[0], parts[1], equal_recordings);
}

void tally_print(void)
{
    for (unsigned call = 0; call < CALLS; call++) {
        printf("; %s", call_name(call));
        for (unsigned number = 0; number < REFUSALS; number++) {
            if (call_may_answer(call, number)) {
                printf(" %u:%" PRIu64, number, answers[call][number]);
            }
        }
    }
    print_formats();
    print_lost();
    printf("; texts of %d cycles written %" PRIu64 ", read %" PRIu64, PL022_TEXT_CYCLES,
           full_texts[CALL_WRITE_TEXT], full_texts[CALL_READ_TEXT]);
    print_recordings();
}

static bool formats_complete(void)
{
    bool complete = true;
    for (unsigned format = 0; format < FORMATS; format++) {
        for (unsigned slave = 0; slave < ROLES_OF_DEVICE; slave++) {
            for (unsigned dss = LEAST_DSS; dss < SIZES; dss++) {
                if (enabled_runs[format][slave][dss] == 0) {
                    fprintf(stderr, "fuzz: never ran FRF %u MS %u DSS %u\n", format, slave, dss);
                    complete = false;
                }
            }
            if (arrivals[format][slave] == 0 || takes[format][slave] == 0) {
                fprintf(stderr, "fuzz: never received or took a word in FRF %u MS %u\n",
                        format, slave);
                complete = false;
            }
            if (ends[format][slave] == 0 || resumes[format][slave] == 0) {
                fprintf(stderr, "fuzz: never ended or resumed a stopped frame in FRF %u MS %u\n",
                        format, slave);
                complete = false;
            }
            if (several[format][slave] == 0) {
                fprintf(stderr, "fuzz: never lost several words in FRF %u MS %u\n", format, slave);
                complete = false;
            }
        }
    }
    return complete;
}

static bool lost_complete(void)
{
    bool complete = overrun_calls[CALL_RUN] > 0 && overrun_calls[CALL_RUN_TO_IDLE] > 0
                 && overrun_calls[CALL_PAIR_RUN] > 0 && overrun_pairs > 0 && overrun_stopped > 0
                 && lost_zeros > 0;
    if (!complete) {
        fputs("fuzz: never lost words in a kind of run, in both of a pair, with SSE clear, "
              "or a word 0\n", stderr);
    }
    return complete;
}

static bool recordings_complete(void)
{
    bool complete = full_recordings > 0 && parts[0] > 0 && parts[1] > 0 && equal_recordings > 0;
    for (unsigned kind = 0; kind < KINDS; kind++) {
        for (unsigned count = 1; count <= PL022_QUEUE_WORDS; count++) {
            complete = complete && accepted[kind][count] > 0;
        }
        complete = complete && cut_short[kind] > 0 && wrong_later[kind] > 0;
    }
    if (!complete) {
        fputs("fuzz: never accepted or refused a kind of recording, or compared one\n", stderr);
    }
    return complete;
}

bool tally_complete(void)
{
    bool formats = formats_complete();
    bool recordings = recordings_complete();
    bool complete = lost_complete() && formats && recordings;
    for (unsigned call = 0; call < CALLS; call++) {
        for (unsigned number = 0; number < REFUSALS; number++) {
            if (call_may_answer(call, number) && answers[call][number] == 0) {
                fprintf(stderr, "fuzz: %s never answered %u\n", call_name(call), number);
                complete = false;
            }
        }
    }
    for (unsigned bit = 0; bit < RAW_BITS; bit++) {
        if (raw_seen[bit] == 0) {
            fprintf(stderr, "fuzz: RIS bit %u was never read as 1\n", bit);
            complete = false;
        }
    }
    if (full_texts[CALL_WRITE_TEXT] == 0 || full_texts[CALL_READ_TEXT] == 0) {
        fputs("fuzz: never wrote or read a text with all cycles\n", stderr);
        complete = false;
    }
    return complete;
}
