#include "answer.h"

#include <inttypes.h>

static unsigned little_endian_16(const uint8_t *bytes)
{
    return bytes[0] | (unsigned)bytes[1] << 8;
}

static uint32_t little_endian_32(const uint8_t *bytes)
{
    return little_endian_16(bytes) | (uint32_t)little_endian_16(bytes + 2) << 16;
}

static void put_queue(FILE *out, const uint8_t *places, unsigned count)
{
    for (unsigned n = 0; n < count; n++) {
        fprintf(out, n == 0 ? "%x" : ",%x", little_endian_16(places + 2 * n));
    }
}

static void put_dump(FILE *out, const uint8_t *record)
{
    fprintf(out, "cr0=%x cr1=%x cpsr=%x imsc=%x dmacr=%x",
            little_endian_16(record + PL022_RECORD_CR0), record[PL022_RECORD_CR1],
            record[PL022_RECORD_CPSR], record[PL022_RECORD_IMSC], record[PL022_RECORD_DMACR]);
    fputs(" tx=", out);
    put_queue(out, record + PL022_RECORD_TX_QUEUE, record[PL022_RECORD_TX_COUNT]);
    fputs(" rx=", out);
    put_queue(out, record + PL022_RECORD_RX_QUEUE, record[PL022_RECORD_RX_COUNT]);
    fprintf(out, " ror=%u rt=%u rtcount=%" PRIu32 " frame=%u lines=%x\n",
            record[PL022_RECORD_ROR], record[PL022_RECORD_RT],
            little_endian_32(record + PL022_RECORD_RT_COUNT), record[PL022_RECORD_FRAME],
            record[PL022_RECORD_LINES]);
}

static void put_output(FILE *out, const struct recording *recording)
{
    if (recording->cycles == 0) {
        putc('-', out);
    }
    for (size_t n = 0; n < recording->cycles; n++) {
        putc("0123456789abcdef"[recording->levels[n] & PL022_OUTPUT_MASK], out);
    }
}

static enum answer_status answer_run(const struct command *command, struct bench *bench, FILE *out)
{
    const struct recording *recording = &bench->recording[command->device];
    bool to_idle = command->verb == VERB_IDLE;
    uint64_t refusal;
    if (!bench_run(bench, command->device, command->digits, command->cycles, to_idle, &refusal)) {
        return ANSWER_NO_MEMORY;
    }
    fprintf(out, "%" PRIu64 " ", refusal);
    if (to_idle) {
        fprintf(out, "%zu ", recording->cycles);
    }
    put_output(out, recording);
    putc('\n', out);
    return ANSWER_GIVEN;
}

static enum answer_status answer_pair(const struct command *command, struct bench *bench, FILE *out)
{
    uint64_t refusal;
    if (!bench_pair(bench, command->cycles, &refusal)) {
        return ANSWER_NO_MEMORY;
    }
    if (refusal != PL022_DONE) {
        return ANSWER_PAIR_REFUSED;
    }
    put_output(out, &bench->recording[0]);
    putc(' ', out);
    put_output(out, &bench->recording[1]);
    putc('\n', out);
    return ANSWER_GIVEN;
}

void answer_words(const uint16_t *words, size_t count, FILE *out)
{
    for (size_t n = 0; n < count; n++) {
        fprintf(out, n == 0 ? "%x" : ",%x", words[n]);
    }
}

static void answer_judge(const struct command *command, FILE *out)
{
    uint16_t words[PL022_QUEUE_WORDS];
    struct pl022_count judged = pl022_judge(command->cr0, command->cpsr, command->digits,
                                            command->cycles, words);
    fprintf(out, "%" PRIu64 " %" PRIu64 " ", judged.refusal, judged.count);
    if (judged.refusal == PL022_DONE) {
        answer_words(words, PL022_QUEUE_WORDS, out);
    } else {
        putc('-', out);
    }
    putc('\n', out);
}

enum answer_status answer(const struct command *command, struct bench *bench, FILE *out)
{
    uint8_t *record = bench->record[command->device];
    bench_next(bench);
    switch (command->verb) {
    case VERB_RESET:
        fprintf(out, "%" PRIu32 "\n",
                pl022_reset_edition(record, PL022_RECORD_LENGTH, command->edition));
        break;
    case VERB_READ: {
        struct pl022_word read = pl022_read(record, PL022_RECORD_LENGTH, command->offset);
        fprintf(out, "%" PRIu32 " %" PRIx32 "\n", read.refusal, read.word);
        break;
    }
    case VERB_WRITE:
        fprintf(out, "%" PRIu32 "\n",
                pl022_write(record, PL022_RECORD_LENGTH, command->offset, command->value));
        break;
    case VERB_RUN:
    case VERB_IDLE:
        return answer_run(command, bench, out);
    case VERB_PAIR:
        return answer_pair(command, bench, out);
    case VERB_DUMP:
        put_dump(out, record);
        break;
    case VERB_JUDGE:
        answer_judge(command, out);
        break;
    }
    return ANSWER_GIVEN;
}

/* Begins with blanks, as a diagram does, so that answers can be told from it. */
void answer_lost(const struct bench *bench, FILE *out)
{
    for (unsigned device = 0; device < DEVICES; device++) {
        const struct pl022_lost *lost = &bench->lost[device];
        if (lost->count > 0) {
            fprintf(out, "  lost %u %" PRIu64 " %" PRIx64 "\n", device, lost->count, lost->last);
        }
    }
}
