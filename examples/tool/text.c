#include "text.h"

#include <errno.h>
#include <inttypes.h>

const char *text_refusal(uint64_t refusal)
{
    switch (refusal) {
    case PL022_TOO_MANY_CYCLES:
        return "more than 4096 cycles";
    case PL022_BAD_CHARACTER:
        return "a character other than 0 to 9, A to F and the line feed";
    case PL022_EMPTY_LINE:
        return "a line without a cycle";
    case PL022_NO_LINE_FEED:
        return "the text does not end with a line feed";
    default:
        return "a number that was not expected";
    }
}

/* Reads the text as if it ended after so many bytes. The buffers are always long enough. */
static struct pl022_text read_beginning(struct text *text, size_t length)
{
    return pl022_read_text(text->bytes, length, text->lines, PL022_TEXT_CYCLES, text->starts,
                           PL022_TEXT_CYCLES);
}

/*
 * The place that decided, from 0. A beginning without it is done, or its last line feed is
 * missing; one with it is refused as the whole is, whatever follows. Hence the search by
 * halves, with no rule of a text in it.
 */
static size_t deciding_place(struct text *text, uint64_t refusal)
{
    if (refusal == PL022_NO_LINE_FEED) {
        return text->length;
    }
    size_t without = 0;
    size_t with = text->length;
    while (with - without > 1) {
        size_t middle = without + (with - without) / 2;
        if (read_beginning(text, middle).refusal == refusal) {
            with = middle;
        } else {
            without = middle;
        }
    }
    return without;
}

static void complain(struct text *text, const char *name, uint64_t refusal, const char *words)
{
    size_t place = deciding_place(text, refusal);
    size_t line = 1;
    size_t column = 1;
    for (size_t n = 0; n < place; n++) {
        line += text->bytes[n] == '\n';
        column = text->bytes[n] == '\n' ? 1 : column + 1;
    }
    fprintf(stderr, "pl022: %s:%zu:%zu: refused with %" PRIu64 ": %s%s\n", name, line, column,
            refusal, text_refusal(refusal), words);
}

/* The first edge of a line is drawn against the line before; the first of all has none. */
static void draw_lines(struct text *text, const struct pl022_text *read,
                       const struct diagram *diagram, FILE *out)
{
    for (size_t n = 0; n < read->starts; n++) {
        size_t start = text->starts[n];
        size_t end = n + 1 < read->starts ? text->starts[n + 1] : (size_t)read->cycles;
        const struct recording recording = {
            .levels = text->lines + start,
            .cycles = end - start,
            .before = text->lines[start == 0 ? 0 : start - 1],
        };
        diagram_draw_recording(diagram, &recording, start, out);
    }
}

bool text_load(struct text *text, FILE *file, const char *name)
{
    text->length = fread(text->bytes, 1, sizeof text->bytes, file);
    if (ferror(file)) {
        files_message(name, errno);
        return false;
    }
    return true;
}

struct pl022_text text_read(struct text *text, const char *name, const char *words)
{
    struct pl022_text read = read_beginning(text, text->length);
    if (read.refusal != PL022_DONE) {
        complain(text, name, read.refusal, words);
    }
    return read;
}

enum status text_draw(FILE *file, const char *name, const struct diagram *diagram, FILE *out)
{
    struct text text;
    if (!text_load(&text, file, name)) {
        return STATUS_FILES;
    }
    struct pl022_text read = text_read(&text, name, "");
    if (read.refusal != PL022_DONE) {
        return STATUS_WRONG;
    }
    errno = 0;
    draw_lines(&text, &read, diagram, out);
    return STATUS_DONE;
}
