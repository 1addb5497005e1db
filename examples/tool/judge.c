#include "judge.h"

#include <errno.h>
#include <inttypes.h>

#include "answer.h"
#include "recorded.h"

/* False after a message. */
static bool load(const struct options *options, unsigned input, struct recorded *recorded)
{
    FILE *file = files_open_input(options->input[input]);
    if (file == NULL) {
        return false;
    }
    bool read = recorded_read(recorded, file, files_input_name(options->input[input]),
                              &options->vcd[input]);
    files_close_input(file);
    return read;
}

/* With a text these options are a mistake, not to be ignored. */
static bool check_vcd_option(const struct options *options, bool has_vcd)
{
    if (options->vcd_option != NULL && !has_vcd) {
        fprintf(stderr, "pl022: %s: expected a VCD file with %s, but this is a text\n",
                files_input_name(options->input[0]), options->vcd_option);
        return false;
    }
    return true;
}

static const char *plural(uint64_t count)
{
    return count == 1 ? "" : "s";
}

static struct recording drawn(struct recorded *recorded)
{
    return (struct recording){
        .levels = recorded->cycles,
        .cycles = recorded->count,
        .before = recorded->cycles[0],
    };
}

/* ---------------------------------------------------------------- judge */

static struct pl022_count judge_cycles(const struct options *options, const uint8_t *cycles,
                                       size_t count, uint16_t words[PL022_QUEUE_WORDS])
{
    return pl022_judge(options->cr0, options->cpsr, cycles, count, words);
}

static void put_settings(const struct options *options, FILE *out)
{
    static const char *const formats[] = {"Motorola", "TI", "Microwire"};
    uint32_t cr0 = options->cr0;
    uint32_t format = (cr0 & PL022_CR0_FRF_MASK) >> PL022_CR0_FRF_SHIFT;
    uint32_t scr = (cr0 & PL022_CR0_SCR_MASK) >> PL022_CR0_SCR_SHIFT;
    fprintf(out, "CR0 %" PRIx32 ", CPSR %" PRIx32 ": %s", cr0, options->cpsr, formats[format]);
    if (format == PL022_CR0_FRF_MOTOROLA >> PL022_CR0_FRF_SHIFT) {
        fprintf(out, ", SPO %d, SPH %d", (cr0 & PL022_CR0_SPO) != 0, (cr0 & PL022_CR0_SPH) != 0);
    }
    fprintf(out, ", b %" PRIu32 ", h %" PRIu32 "\n",
            ((cr0 & PL022_CR0_DSS_MASK) >> PL022_CR0_DSS_SHIFT) + 1, options->cpsr / 2 * (1 + scr));
}

/* Says which of the writes that would enable a master is refused. */
static void put_not_enabled(const struct options *options, FILE *out)
{
    const struct {
        const char *what;
        uint32_t offset, value;
    } writes[] = {
        {"this CR0", PL022_CR0, options->cr0},
        {"this CPSR", PL022_CPSR, options->cpsr},
        {"SSE with this CPSR, which reads 0,", PL022_CR1, PL022_CR1_SSE},
    };
    uint8_t record[PL022_RECORD_LENGTH];
    uint32_t refusal = pl022_reset(record, sizeof record);
    fprintf(out, "refused with %d: no master can be enabled with CR0 %" PRIx32 " and CPSR %" PRIx32,
            PL022_NOT_PERMITTED, options->cr0, options->cpsr);
    for (size_t n = 0; refusal == PL022_DONE && n < sizeof writes / sizeof writes[0]; n++) {
        refusal = pl022_write(record, sizeof record, writes[n].offset, writes[n].value);
        if (refusal != PL022_DONE) {
            fprintf(out, ": a write of %s is refused with %" PRIu32, writes[n].what, refusal);
        }
    }
    putc('\n', out);
}

/* Whether some list gives these cycles, as its first ones or as all. */
static bool is_beginning(const struct options *options, const uint8_t *cycles, size_t count)
{
    uint16_t words[PL022_QUEUE_WORDS];
    struct pl022_count judged = judge_cycles(options, cycles, count, words);
    return judged.refusal == PL022_DONE
        || (judged.refusal == PL022_NO_MATCH && judged.count == count);
}

/* What can stand in this cycle behind those before it. The library is asked: no rule is here. */
static void put_possible(const struct options *options, struct recorded *recorded, size_t cycle,
                         FILE *out)
{
    uint16_t words[PL022_QUEUE_WORDS];
    const char *between = "";
    uint8_t kept = recorded->cycles[cycle];
    if (cycle == PL022_JUDGE_CYCLES) {
        return; /* a longer recording is not judged */
    }
    fprintf(out, "possible in cycle %zu: ", cycle);
    for (unsigned lines = 0; lines <= PL022_OUTPUT_MASK; lines++) {
        recorded->cycles[cycle] = (uint8_t)lines;
        if (is_beginning(options, recorded->cycles, cycle + 1)) {
            fprintf(out, "%s%X", between, lines);
            between = " or ";
        }
    }
    recorded->cycles[cycle] = kept;
    if (judge_cycles(options, recorded->cycles, cycle, words).refusal == PL022_DONE) {
        fprintf(out, "%sthe end of the recording", between);
    }
    putc('\n', out);
}

static void put_time(const struct recorded *recorded, size_t cycle, FILE *out)
{
    if (recorded->is_vcd) {
        fprintf(out, " (time %" PRIu64 ")", recorded->start + cycle * recorded->period);
    }
}

static void put_no_match(const struct options *options, struct recorded *recorded, size_t leading,
                         const struct diagram *diagram, FILE *out)
{
    fprintf(out, "refused with %d: ", PL022_NO_MATCH);
    if (recorded->count == 0) {
        fputs("the recording has no cycles\n", out);
    } else if (leading == recorded->count) {
        fprintf(out, "the recording ends too early, after %zu cycle%s\n", leading, plural(leading));
    } else {
        fprintf(out, "cycle %zu", leading);
        put_time(recorded, leading, out);
        fprintf(out, " is %X: no list of one to eight words gives that there\n",
                recorded->cycles[leading]);
    }
    put_possible(options, recorded, leading, out);
    struct recording recording = drawn(recorded);
    diagram_draw_around(diagram, &recording, leading, out);
}

static enum verdict put_verdict(const struct options *options, struct recorded *recorded,
                                const struct diagram *diagram, FILE *out)
{
    uint16_t words[PL022_QUEUE_WORDS];
    errno = 0;
    struct pl022_count judged = judge_cycles(options, recorded->cycles, recorded->count, words);
    if (judged.refusal == PL022_NOT_PERMITTED) {
        put_not_enabled(options, out);
        return VERDICT_NO;
    }
    put_settings(options, out);
    if (judged.refusal == PL022_TOO_LONG) {
        fprintf(out, "refused with %d: the recording has more than %d cycles\n", PL022_TOO_LONG,
                PL022_JUDGE_CYCLES);
        return VERDICT_NO;
    }
    if (judged.refusal == PL022_NO_MATCH) {
        put_no_match(options, recorded, (size_t)judged.count, diagram, out);
        return VERDICT_NO;
    }
    fprintf(out, "accepted: %zu cycle%s, %" PRIu64 " word%s: ", recorded->count,
            plural(recorded->count), judged.count, plural(judged.count));
    answer_words(words, (size_t)judged.count, out);
    putc('\n', out);
    return VERDICT_YES;
}

enum verdict judge_recording(const struct options *options, const struct diagram *diagram,
                             FILE *out)
{
    struct recorded recorded = {.count = 0};
    if (!load(options, 0, &recorded) || !check_vcd_option(options, recorded.is_vcd)) {
        return VERDICT_TROUBLE;
    }
    return put_verdict(options, &recorded, diagram, out);
}

/* ---------------------------------------------------------------- difference */

/* Two recordings can be compared up to the length at which they can be judged. */
static bool check_length(const char *input, const struct recorded *recorded)
{
    if (recorded->count <= PL022_JUDGE_CYCLES) {
        return true;
    }
    fprintf(stderr,
            "pl022: %s: more than %d cycles: expected no more, --from and --to choose some\n",
            files_input_name(input), PL022_JUDGE_CYCLES);
    return false;
}

static void put_part(const char *const names[MOST_INPUTS], struct recorded recorded[MOST_INPUTS],
                     const struct pl022_part *part, const struct diagram *diagram, FILE *out)
{
    size_t start = (size_t)part->start;
    const char *name = names[part->second];
    if (start < recorded[0].count && start < recorded[1].count) {
        fprintf(out, "cycle %zu is %X in %s and %X in %s\n", start, recorded[0].cycles[start],
                names[0], recorded[1].cycles[start], names[1]);
    } else {
        fprintf(out, "no difference in %zu cycle%s, but %s goes on\n", start, plural(start), name);
    }
    fprintf(out, "the rest of %s, from cycle %zu", name, start);
    put_time(&recorded[part->second], start, out);
    fprintf(out, " on: %" PRIu64 " cycle%s\n", part->length, plural(part->length));
    struct recording recording = drawn(&recorded[part->second]);
    diagram_draw_from(diagram, &recording, start, out);
}

enum verdict judge_difference(const struct options *options, const struct diagram *diagram,
                              FILE *out)
{
    struct recorded recorded[MOST_INPUTS] = {{.count = 0}};
    const char *names[MOST_INPUTS];
    for (unsigned n = 0; n < MOST_INPUTS; n++) {
        names[n] = files_input_name(options->input[n]);
        if (!load(options, n, &recorded[n]) || !check_length(options->input[n], &recorded[n])) {
            return VERDICT_TROUBLE;
        }
    }
    if (!check_vcd_option(options, recorded[0].is_vcd || recorded[1].is_vcd)) {
        return VERDICT_TROUBLE;
    }
    errno = 0;
    struct pl022_part part = pl022_difference(recorded[0].cycles, recorded[0].count,
                                              recorded[1].cycles, recorded[1].count);
    if (part.length == 0) {
        fprintf(out, "no difference in %" PRIu64 " cycle%s\n", part.start, plural(part.start));
        return VERDICT_YES;
    }
    put_part(names, recorded, &part, diagram, out);
    return VERDICT_NO;
}
