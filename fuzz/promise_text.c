#include "promise_text.h"

#include <string.h>

#include "report.h"

static size_t places_in(const struct bytes *places)
{
    return places->length / PLACE_SIZE;
}

size_t text_lines(const struct request *request)
{
    const struct bytes *places = &request->lent[ROLE_PLACES];
    size_t count = places_in(places);
    bool before_first = request->lent[ROLE_LINES].length > 0
                     && (count == 0 || place_get(places, 0) != 0);
    return count + before_first;
}

uint8_t text_digit(unsigned cycle)
{
    return (uint8_t)"0123456789ABCDEF"[cycle];
}

static bool places_rise(const struct bytes *places, size_t count, size_t cycles)
{
    for (size_t n = 0; n < count; n++) {
        if (place_get(places, n) >= cycles
            || (n > 0 && place_get(places, n) <= place_get(places, n - 1))) {
            return false;
        }
    }
    return true;
}

static bool cycles_are_lines(const struct bytes *lines, size_t cycles)
{
    for (size_t n = 0; n < cycles; n++) {
        if (lines->data[n] > PL022_OUTPUT_MASK) {
            return false;
        }
    }
    return true;
}

static uint64_t writing_refusal(const struct request *request)
{
    const struct bytes *lines = &request->lent[ROLE_LINES];
    const struct bytes *places = &request->lent[ROLE_PLACES];

    if (lines->length > PL022_TEXT_CYCLES) {
        return PL022_TOO_MANY_CYCLES;
    }
    if (!cycles_are_lines(lines, lines->length)) {
        return PL022_BAD_CYCLE;
    }
    if (!places_rise(places, places_in(places), lines->length)) {
        return PL022_BAD_PLACES;
    }
    size_t length = lines->length + text_lines(request);
    return request->lent[ROLE_TEXT].length < length ? PL022_TOO_SHORT : PL022_DONE;
}

static uint64_t reading_refusal(const struct request *request, const struct outcome *outcome)
{
    const struct due *due = &request->due;

    if (!due->known || due->refusal != PL022_DONE) {
        return due->known ? due->refusal : outcome->refusal;
    }
    bool enough = request->lent[ROLE_LINES].length >= due->cycles
               && places_in(&request->lent[ROLE_PLACES]) >= due->starts;
    return enough ? PL022_DONE : PL022_TOO_SHORT;
}

uint64_t text_expected_refusal(const struct request *request, const struct outcome *outcome)
{
    return request->call == CALL_WRITE_TEXT ? writing_refusal(request)
                                            : reading_refusal(request, outcome);
}

/* Each character is a line feed or the digit of the next cycle; there are so many of each. */
static void check_characters(const uint8_t *text, size_t length, const struct bytes *lines,
                             size_t cycles, size_t line_feeds)
{
    size_t digits = 0;
    size_t feeds = 0;

    report_unless(length == cycles + line_feeds,
                  "a text is not as long as its cycles and line feeds");
    for (size_t n = 0; n < length; n++) {
        if (text[n] == '\n') {
            feeds++;
        } else {
            report_unless(digits < cycles && text[n] == text_digit(lines->data[digits]),
                          "a character is not the digit of its cycle");
            digits++;
        }
    }
    report_unless(feeds == line_feeds, "a text has other line feeds than lines");
    report_unless(length == 0 || text[length - 1] == '\n', "a text does not end with a line feed");
}

void text_check_written(const struct request *request, const struct outcome *outcome)
{
    const struct bytes *lines = &request->lent[ROLE_LINES];

    check_characters(outcome->after[ROLE_TEXT].data, (size_t)outcome->result, lines,
                     lines->length, text_lines(request));
}

void text_check_read(const struct request *request, const struct outcome *outcome)
{
    const struct bytes *text = &request->lent[ROLE_TEXT];
    const struct bytes *lines = &outcome->after[ROLE_LINES];
    const struct bytes *starts = &outcome->after[ROLE_PLACES];
    size_t cycles = (size_t)outcome->result;
    size_t count = (size_t)outcome->starts;

    report_unless(cycles <= PL022_TEXT_CYCLES && cycles_are_lines(lines, cycles),
                  "too many cycles were read, or one above 15");
    report_unless(places_rise(starts, count, cycles), "line starts do not rise");
    report_unless(count == 0 || place_get(starts, 0) == 0, "the first line does not start with 0");
    report_unless(!request->due.known
                  || (cycles == request->due.cycles && count == request->due.starts),
                  "other counts were read than the text was made for");
    check_characters(text->data, text->length, lines, cycles, count);
}

static void read_wide(uint8_t *bytes, size_t length)
{
    uint8_t text[] = {'A', '\n'};
    uint8_t lines[1];
    uint32_t starts[1];
    struct pl022_text read;

    memcpy(bytes, text, sizeof text);
    /* Cut to 32 bits, the first length would be that of an accepted text. */
    read = pl022_read_text(bytes, length - PL022_RECORD_LENGTH + sizeof text, lines, 1, starts, 1);
    report_unless(read.refusal == PL022_BAD_CHARACTER, "a text of more than 32 bits was cut");
    read = pl022_read_text(text, sizeof text, bytes, length - PL022_RECORD_LENGTH, starts, 1);
    report_unless(read.refusal == PL022_DONE && read.cycles == 1,
                  "a buffer of more than 32 bits was cut");
}

void text_judge_wide_lengths(uint8_t *bytes, size_t length)
{
    uint8_t lines[1] = {0};
    uint8_t text[2];
    uint32_t places[1] = {0};
    struct pl022_count written;

    written = pl022_write_text(bytes, length, places, 1, text, sizeof text);
    report_unless(written.refusal == PL022_TOO_MANY_CYCLES, "many cycles were cut to 32 bits");
    written = pl022_write_text(lines, 1, places, 1, bytes, length - PL022_RECORD_LENGTH);
    report_unless(written.refusal == PL022_DONE && written.count == sizeof text,
                  "a text of more than 32 bits was cut");
    read_wide(bytes, length);
}
