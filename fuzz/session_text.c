#include "session_text.h"

#include <string.h>

#include "calls.h"
#include "draw.h"
#include "promise.h"
#include "promise_text.h"
#include "relate.h"
#include "report.h"

/* A recording as it was drawn, and its text, kept while the request changes. */
static struct bytes cycles;
static struct bytes places;
static struct bytes text;
static struct request request;
static struct outcome outcome;

static void submit(void)
{
    judge(&request, &outcome);
    if (draw_one_in(6)) {
        relate(&request, &outcome);
    }
}

/* Small ones are quick; the limit and its neighbours are where slips are. */
static size_t draw_size(void)
{
    switch (draw_below(16)) {
    case 0:
        return draw_between(PL022_TEXT_CYCLES - 2, PL022_TEXT_CYCLES);
    case 1:
        return PL022_TEXT_CYCLES;
    case 2: case 3: case 4:
        return draw_below(3);
    case 5: case 6: case 7: case 8:
        return draw_between(100, 700);
    default:
        return draw_between(2, 40);
    }
}

/* Cycles, and rising places: none, some or all of them. */
static void draw_recording(size_t size)
{
    static const uint32_t gaps[] = {1, 1, 2, 20, 300, 8192};
    uint32_t gap = gaps[draw_below(sizeof gaps / sizeof gaps[0])];
    size_t count = 0;

    cycles.length = size;
    draw_bytes(cycles.data, size);
    for (size_t n = 0; n < size; n++) {
        cycles.data[n] &= PL022_OUTPUT_MASK;
        if (draw_one_in(gap)) {
            place_set(&places, count++, (uint32_t)n);
        }
    }
    places.length = count * PLACE_SIZE;
}

/* The length that is needed, one less, or any other. */
static size_t draw_room(size_t needed)
{
    switch (draw_below(8)) {
    case 0:
        return needed == 0 ? 0 : needed - 1;
    case 1:
        return draw_below((uint32_t)needed + 1);
    case 2: case 3:
        return needed + draw_between(1, 200);
    default:
        return needed;
    }
}

static void lend_room(enum role role, size_t length)
{
    struct bytes *lent = &request.lent[role];

    lent->length = length < LENT_LIMIT ? length : LENT_LIMIT;
    draw_bytes(lent->data, lent->length);
}

static void lend_recording(void)
{
    request.call = CALL_WRITE_TEXT;
    bytes_set(&request.lent[ROLE_LINES], cycles.data, cycles.length);
    bytes_set(&request.lent[ROLE_PLACES], places.data, places.length);
}

/* Writes the recording as it is; the outcome has its text. */
static void write_recording(void)
{
    lend_recording();
    lend_room(ROLE_TEXT, cycles.length + text_lines(&request));
    submit();
    report_unless(outcome.refusal == PL022_DONE, "a recording cannot be written");
}

static void keep_text(void)
{
    bytes_set(&text, outcome.after[ROLE_TEXT].data, (size_t)outcome.result);
}

/* Writes the cycles and line starts that were read, and gets the text again. */
static void write_again(void)
{
    bytes_set(&cycles, outcome.after[ROLE_LINES].data, (size_t)outcome.result);
    bytes_set(&places, outcome.after[ROLE_PLACES].data, (size_t)outcome.starts * PLACE_SIZE);
    write_recording();
    report_unless(outcome.result == text.length
                  && memcmp(outcome.after[ROLE_TEXT].data, text.data, text.length) == 0,
                  "a text that was read is written otherwise");
}

static void spoil_cycles(struct bytes *lines)
{
    if (lines->length > 0) {
        uint32_t at = draw_one_in(2) ? (uint32_t)lines->length - 1
                                     : draw_below((uint32_t)lines->length);
        lines->data[at] = (uint8_t)(draw_one_in(2) ? PL022_OUTPUT_MASK + 1
                                                   : draw_between(PL022_OUTPUT_MASK + 1, 255));
    }
}

/* A place that does not rise, or one past the last cycle, near and far. */
static void spoil_places(struct bytes *lent, size_t size)
{
    size_t count = lent->length / PLACE_SIZE;
    uint32_t at = draw_below((uint32_t)count + 1);

    switch (draw_below(4)) {
    case 0:
        place_set(lent, at, (uint32_t)size);
        break;
    case 1:
        place_set(lent, at, (uint32_t)draw_bits());
        break;
    case 2:
        place_set(lent, at, at == 0 ? UINT32_MAX : place_get(lent, at - 1));
        break;
    default:
        place_set(lent, at, at == 0 ? (uint32_t)size : place_get(lent, at - 1) - 1);
        break;
    }
    if (at == count) {
        lent->length += PLACE_SIZE;
    }
}

/* Cycles past the limit. Places may lie among them. */
static void add_cycles(struct bytes *lines)
{
    size_t length = draw_one_in(2) ? PL022_TEXT_CYCLES + 1
                                   : draw_between(PL022_TEXT_CYCLES + 1, LENT_LIMIT);
    draw_bytes(lines->data + lines->length, length - lines->length);
    lines->length = length;
}

/* Several things are often wrong at once, or their order would not show. */
static void write_spoiled(void)
{
    lend_recording();
    if (draw_one_in(2)) {
        spoil_cycles(&request.lent[ROLE_LINES]);
    }
    if (draw_one_in(2)) {
        spoil_places(&request.lent[ROLE_PLACES], cycles.length);
    }
    lend_room(ROLE_TEXT, draw_room(cycles.length + text_lines(&request)));
    if (draw_one_in(4)) {
        add_cycles(&request.lent[ROLE_LINES]);
    }
    submit();
}

static void lend_text(uint64_t refusal, size_t cycles_due, size_t starts_due)
{
    request.call = CALL_READ_TEXT;
    request.due = (struct due){true, refusal, cycles_due, starts_due, 0};
    bytes_set(&request.lent[ROLE_TEXT], text.data, text.length);
    lend_room(ROLE_LINES, draw_room(cycles_due));
    lend_room(ROLE_PLACES, PLACE_SIZE * draw_room(starts_due));
}

/* Place n of the line starts: that of the recording, with 0 before them if cycles precede. */
static uint32_t start_due(size_t n, size_t lines)
{
    size_t added = lines - places.length / PLACE_SIZE;
    return n < added ? 0 : place_get(&places, n - added);
}

/* What was written comes back, and once more the same text from that. */
static void round_trip(void)
{
    size_t lines = text_lines(&request);

    keep_text();
    lend_text(PL022_DONE, cycles.length, lines);
    submit();
    if (outcome.refusal != PL022_DONE) {
        return;
    }
    report_unless(memcmp(outcome.after[ROLE_LINES].data, cycles.data, cycles.length) == 0,
                  "other cycles came back");
    for (size_t n = 0; n < lines; n++) {
        report_unless(place_get(&outcome.after[ROLE_PLACES], n) == start_due(n, lines),
                      "another line start came back");
    }
    write_again();
}

static bool at_line_start(size_t at)
{
    return at == 0 || text.data[at - 1] == '\n';
}

static uint8_t draw_bad_character(void)
{
    static const uint8_t near[] = {
        '\0', '\r', '\t', '\v', ' ', '/', ':', '@', 'G', '`', 'a', 'f', 'g', 'x', 0x8A, 0xFF
    };
    return near[draw_below(sizeof near)];
}

/* Any bytes behind place at, which has decided. */
static void add_noise(size_t at)
{
    text.length = at + 1 + draw_below(40);
    draw_bytes(text.data + at + 1, text.length - at - 1);
}

/* Ends the line of place at with CR LF; nothing else is wrong with the text. */
static void end_with_cr_lf(size_t at)
{
    while (text.data[at] != '\n') {
        at++;
    }
    memmove(text.data + at + 1, text.data + at, text.length - at);
    text.data[at] = '\r';
    text.length++;
}

/*
 * Cuts the text, or puts a place into it that decides: up to there it is one that was
 * written. Returns the number that is due.
 */
static uint64_t decide(void)
{
    size_t at = draw_between(0, (uint32_t)text.length);
    bool start = at_line_start(at);

    if (at < text.length && draw_one_in(8)) {
        end_with_cr_lf(at);
        return PL022_BAD_CHARACTER;
    }
    if (draw_one_in(3)) {
        text.length = at;
        return start ? PL022_DONE : PL022_NO_LINE_FEED;
    }
    bool empty_line = start && draw_one_in(2);
    text.data[at] = empty_line ? '\n' : draw_bad_character();
    add_noise(at);
    return empty_line ? PL022_EMPTY_LINE : PL022_BAD_CHARACTER;
}

/* One digit more than a text may have, on the last line or on one of its own. */
static uint64_t overfill(void)
{
    size_t at = text.length - draw_below(2);

    text.data[at] = text_digit(draw_below(16));
    add_noise(at);
    return PL022_TOO_MANY_CYCLES;
}

static size_t line_feeds(void)
{
    size_t count = 0;
    for (size_t n = 0; n < text.length; n++) {
        count += text.data[n] == '\n';
    }
    return count;
}

/* A text that was written, then cut or damaged, read with buffers that may be too short. */
static void read_decided(void)
{
    write_recording();
    keep_text();
    bool full = cycles.length == PL022_TEXT_CYCLES;
    uint64_t refusal = full && draw_one_in(2) ? overfill() : decide();
    lend_text(refusal, text.length - line_feeds(), line_feeds());
    submit();
    if (outcome.refusal == PL022_DONE) {
        report_unless(memcmp(outcome.after[ROLE_LINES].data, cycles.data,
                             (size_t)outcome.result) == 0,
                      "other cycles were read than were written");
    }
}

/* Mostly what may stand in a text, seldom any bytes. Whatever is read can be written again. */
static void draw_text(void)
{
    static const char alphabet[] = "0123456789ABCDEF\n\n\n\nA5";
    bool any = draw_one_in(4);

    text.length = draw_below(draw_one_in(4) ? 60 : 8);
    draw_bytes(text.data, text.length);
    for (size_t n = 0; !any && n < text.length; n++) {
        text.data[n] = (uint8_t)alphabet[text.data[n] % (sizeof alphabet - 1)];
    }
    if (draw_one_in(2) && text.length > 0) {
        text.data[text.length - 1] = '\n';
    }
}

static void read_random(void)
{
    draw_text();
    lend_text(PL022_DONE, text.length - line_feeds(), line_feeds());
    request.due.known = false;
    submit();
    if (outcome.refusal == PL022_DONE) {
        write_again();
    }
}

void session_text(void)
{
    draw_recording(draw_size());
    switch (draw_below(4)) {
    case 0:
        write_spoiled();
        break;
    case 1:
        write_recording();
        round_trip();
        break;
    case 2:
        read_decided();
        break;
    default:
        read_random();
        break;
    }
}
