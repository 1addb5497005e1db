#include "diagram.h"

#include <inttypes.h>
#include <stdlib.h>
#include <string.h>

/*
 * A cycle is two columns: the edge against the cycle before, then the level. With
 * one column a clock of one cycle a slot would have no visible edges.
 */
enum {
    CYCLE_COLUMNS = 2,
    RULER_STEP = 5,    /* cycles from one number to the next: 10 columns, room for 2^24 */
    LABEL_COLUMNS = 11,
    USUAL_COLUMNS = 80,
    LEAST_COLUMNS = 40,
    MOST_COLUMNS = 1000
};

struct strokes {
    const char *driven[2];   /* LOW, HIGH */
    const char *released[2]; /* TXD while nSSPOE is HIGH: dotted, at the same heights */
    const char *fall;
    const char *rise;
};

static const struct strokes ascii_strokes = {{"_", "-"}, {".", "'"}, "\\", "/"};

/* Lower and upper eighth blocks, Braille dots at the bottom and the top, diagonals. */
static const struct strokes unicode_strokes = {
    {"\xE2\x96\x81", "\xE2\x96\x94"},
    {"\xE2\xA3\x80", "\xE2\xA0\x89"},
    "\xE2\x95\xB2",
    "\xE2\x95\xB1",
};

static const struct row {
    const char *name;
    enum line_number line;
} rows[] = {
    {"CLK in", LINE_CLK_IN},
    {"FSS in", LINE_FSS_IN},
    {"RXD", LINE_RXD},
    {"CLK", LINE_CLK},
    {"FSS", LINE_FSS},
    {"TXD", LINE_TXD},
    {"nSSPOE", LINE_NSSPOE},
};

/* What one recording adds to a diagram. */
struct part {
    const char *label; /* stands before the name of each row */
    const struct recording *recording;
    bool with_inputs;
};

unsigned diagram_columns(void)
{
    const char *text = getenv("COLUMNS");
    if (text == NULL || text[0] < '1' || text[0] > '9') {
        return USUAL_COLUMNS;
    }
    char *end;
    unsigned long columns = strtoul(text, &end, 10);
    bool sane = *end == '\0' && columns >= LEAST_COLUMNS && columns <= MOST_COLUMNS;
    return sane ? (unsigned)columns : USUAL_COLUMNS;
}

/* Whole steps of the ruler, so that each block begins with a number. */
static size_t cycles_in_block(unsigned columns)
{
    size_t cycles = (columns - LABEL_COLUMNS) / CYCLE_COLUMNS;
    return cycles - cycles % RULER_STEP;
}

static void draw_ruler(size_t first, size_t end, FILE *out)
{
    fprintf(out, "  %-*s", LABEL_COLUMNS - 2, "cycle");
    for (size_t n = first; n < end; n += RULER_STEP) {
        bool last = end - n <= RULER_STEP;
        fprintf(out, "%-*zu", last ? 0 : RULER_STEP * CYCLE_COLUMNS, n);
    }
    putc('\n', out);
}

static void draw_cycle(const struct strokes *strokes, enum line_number line, unsigned before,
                       unsigned now, FILE *out)
{
    unsigned old = before >> line & 1U;
    unsigned level = now >> line & 1U;
    bool released = line == LINE_TXD && (now >> LINE_NSSPOE & 1U) != 0;
    const char *flat = released ? strokes->released[level] : strokes->driven[level];
    const char *edge = level > old ? strokes->rise : strokes->fall;
    fputs(old == level ? flat : edge, out);
    fputs(flat, out);
}

static void draw_row(const struct strokes *strokes, const struct part *part, const struct row *row,
                     size_t first, size_t end, FILE *out)
{
    const struct recording *recording = part->recording;
    unsigned before = first == 0 ? recording->before : recording->levels[first - 1];
    int name_columns = LABEL_COLUMNS - 2 - (int)strlen(part->label);
    fprintf(out, "  %s%-*s", part->label, name_columns, row->name);
    for (size_t n = first; n < end; n++) {
        draw_cycle(strokes, row->line, before, recording->levels[n], out);
        before = recording->levels[n];
    }
    putc('\n', out);
}

static bool inputs_are_low(const struct recording *recording)
{
    for (size_t n = 0; n < recording->cycles; n++) {
        if ((recording->levels[n] & ~PL022_OUTPUT_MASK) != 0) {
            return false;
        }
    }
    return true;
}

static void draw_block(const struct strokes *strokes, const struct part *parts, size_t count,
                       size_t first, size_t end, FILE *out)
{
    draw_ruler(first, end, out);
    for (const struct part *part = parts; part < parts + count; part++) {
        for (size_t n = 0; n < sizeof rows / sizeof rows[0]; n++) {
            if (rows[n].line < LINE_CLK_IN || part->with_inputs) {
                draw_row(strokes, part, &rows[n], first, end, out);
            }
        }
    }
}

static const struct strokes *strokes_of(const struct diagram *diagram)
{
    return diagram->ascii ? &ascii_strokes : &unicode_strokes;
}

/* One part or more, all of as many cycles. */
static void draw_parts(const struct diagram *diagram, const struct part *parts, size_t count,
                       uint64_t time, FILE *out)
{
    const struct strokes *strokes = strokes_of(diagram);
    size_t cycles = parts[0].recording->cycles;
    size_t step = cycles_in_block(diagram->columns);
    fprintf(out, "  time %" PRIu64 ", %zu cycle%s\n", time, cycles, cycles == 1 ? "" : "s");
    for (size_t first = 0; first < cycles; first += step) {
        size_t end = cycles - first < step ? cycles : first + step;
        draw_block(strokes, parts, count, first, end, out);
    }
}

void diagram_draw(const struct diagram *diagram, const struct bench *bench, uint64_t time,
                  FILE *out)
{
    static const char *const labels[DEVICES] = {"0 ", "1 "};
    struct part parts[DEVICES];
    size_t count = 0;
    for (unsigned device = 0; device < DEVICES; device++) {
        const struct recording *recording = &bench->recording[device];
        if (recording->cycles > 0) {
            /* In a pair each input is the other's output a cycle earlier: drawn already. */
            bool with_inputs = !bench_ran_pair(bench) && !inputs_are_low(recording);
            parts[count++] = (struct part){labels[device], recording, with_inputs};
        }
    }
    if (count > 0) {
        draw_parts(diagram, parts, count, time, out);
    }
}

void diagram_draw_recording(const struct diagram *diagram, const struct recording *recording,
                            uint64_t time, FILE *out)
{
    const struct part part = {.label = "", .recording = recording};
    draw_parts(diagram, &part, 1, time, out);
}

void diagram_draw_from(const struct diagram *diagram, const struct recording *recording,
                       size_t cycle, FILE *out)
{
    const struct part part = {.label = "", .recording = recording};
    size_t step = cycles_in_block(diagram->columns);
    size_t left = recording->cycles - cycle;
    if (left > 0) {
        draw_block(strokes_of(diagram), &part, 1, cycle, cycle + (left < step ? left : step), out);
    }
}

void diagram_draw_around(const struct diagram *diagram, const struct recording *recording,
                         size_t cycle, FILE *out)
{
    size_t before = cycles_in_block(diagram->columns) / 2;
    size_t first = cycle < before ? 0 : cycle - before;
    first -= first % RULER_STEP;
    if (recording->cycles > 0) {
        diagram_draw_from(diagram, recording, first, out);
        fprintf(out, "%*s\n", (int)(LABEL_COLUMNS + CYCLE_COLUMNS * (cycle - first + 1)), "^^");
    }
}
