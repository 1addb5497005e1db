#include "vcd_read.h"

#include <errno.h>
#include <inttypes.h>
#include <stdarg.h>
#include <string.h>

#include "files.h"
#include "word.h"

const char *const vcd_usual_wires[VCD_WIRES] = {"clk0", "fss0", "txd0", "nsspoe0"};
const char *const vcd_wire_options[VCD_WIRES] = {"--clk", "--fss", "--txd", "--nsspoe"};

enum { IDENTIFIER_LIMIT = 32, MOST_SCOPES = 256, NO_LEVEL = 0 };

/* Room for the names of the scopes, a point behind each, and for a word behind them. */
enum { PATH_LIMIT = 4096 };

/* What a bit can be; only 0 and 1 can be read as a cycle's. */
static const char all_levels[] = "01xXzZuUwWlLhH-";

struct wire {
    char identifier[IDENTIFIER_LIMIT]; /* empty: not declared so far */
    bool exact;                        /* the whole path is the name that is wanted */
    size_t line;                       /* of its declaration */
    size_t other_line;                 /* of a second wire with this name, or 0 */
    bool is_bit;                       /* one bit with levels */
    char level;                        /* as in the file, or NO_LEVEL */
    size_t level_line;
};

struct reader {
    struct vcd_words *words;
    const char *name;
    const struct vcd_choice *choice;
    struct vcd_room *room;
    struct wire wires[VCD_WIRES];
    char path[PATH_LIMIT];           /* the scopes and a point, then the name of a wire */
    size_t path_length;              /* of the scopes, with the point */
    size_t outer_length[MOST_SCOPES];
    size_t scopes;
    bool has_time;                   /* a time was read */
    uint64_t time;
    bool over;                       /* no time is left for a further cycle */
    uint64_t next;                   /* the time of the next cycle */
};

/* Always false, so that a check can return it. */
static bool complain_at(const struct reader *reader, size_t line, const char *format, ...)
{
    va_list arguments;
    fprintf(stderr, "pl022: %s:%zu: ", reader->name, line);
    va_start(arguments, format);
    vfprintf(stderr, format, arguments);
    va_end(arguments);
    putc('\n', stderr);
    return false;
}

static struct quoted quote_word(const struct reader *reader)
{
    return word_quote(reader->words->text, reader->words->length);
}

/* The next word, which has to be there. */
static bool need_word(struct reader *reader, const char *within)
{
    if (vcd_words_next(reader->words)) {
        return true;
    }
    if (ferror(reader->words->file)) {
        files_message(reader->name, errno);
        return false;
    }
    return complain_at(reader, reader->words->line, "the file ends within %s", within);
}

static bool at_end_word(const struct reader *reader)
{
    return vcd_words_are(reader->words, "$end");
}

/* Passes over all words up to $end. */
static bool skip(struct reader *reader, const char *within)
{
    do {
        if (!need_word(reader, within)) {
            return false;
        }
    } while (!at_end_word(reader));
    return true;
}

static bool need_end(struct reader *reader, const char *within)
{
    return need_word(reader, within)
        && (at_end_word(reader)
            || complain_at(reader, reader->words->line, "'%s' in %s: expected $end",
                           quote_word(reader).text, within));
}

/* ---------------------------------------------------------------- declarations */

static bool read_scope(struct reader *reader)
{
    static const char within[] = "$scope";
    if (!need_word(reader, within) || !need_word(reader, within)) {
        return false;
    }
    size_t length = at_end_word(reader) ? 0 : reader->words->length;
    if (reader->scopes == MOST_SCOPES) {
        return complain_at(reader, reader->words->line, "more than %d scopes within each other",
                           MOST_SCOPES);
    }
    if (length >= VCD_WORD_LIMIT
        || reader->path_length + length + 1 > PATH_LIMIT - VCD_WORD_LIMIT) {
        return complain_at(reader, reader->words->line, "the names of the scopes are too long");
    }
    reader->outer_length[reader->scopes++] = reader->path_length;
    if (length == 0) {
        return true; /* a scope without a name */
    }
    memcpy(reader->path + reader->path_length, reader->words->text, length);
    reader->path_length += length;
    reader->path[reader->path_length++] = '.';
    return need_end(reader, within);
}

static bool read_upscope(struct reader *reader)
{
    if (reader->scopes == 0) {
        return complain_at(reader, reader->words->line, "$upscope without $scope");
    }
    reader->path_length = reader->outer_length[--reader->scopes];
    return need_end(reader, "$upscope");
}

/* The whole path, or its end behind a point. */
static bool is_named(const char *path, size_t length, const char *wanted, bool *exact)
{
    size_t wanted_length = strlen(wanted);
    if (wanted_length > length
        || memcmp(path + length - wanted_length, wanted, wanted_length) != 0) {
        return false;
    }
    *exact = wanted_length == length;
    return *exact || path[length - wanted_length - 1] == '.';
}

/* The whole path comes before its end; of several names of one identifier any will do. */
static void note_wire(struct wire *wire, const struct wire *found)
{
    bool first = wire->identifier[0] == '\0';
    if (first || (found->exact && !wire->exact)) {
        *wire = *found;
    } else if (found->exact == wire->exact
               && strcmp(wire->identifier, found->identifier) != 0) {
        wire->other_line = found->line;
    }
}

/* The path of a wire is complete. An index behind its name, such as [0], may be left out. */
static void note_path(struct reader *reader, size_t length, struct wire *found)
{
    const char *path = reader->path;
    const char *index = path[length - 1] == ']' ? strrchr(path, '[') : NULL;
    for (unsigned line = 0; line < VCD_WIRES; line++) {
        const char *wanted = reader->choice->wire[line];
        if (is_named(path, length, wanted, &found->exact)
            || (index != NULL && is_named(path, (size_t)(index - path), wanted, &found->exact))) {
            note_wire(&reader->wires[line], found);
        }
    }
}

/* The next word of a $var, which is not over yet. */
static bool need_part(struct reader *reader)
{
    return need_word(reader, "$var")
        && (!at_end_word(reader)
            || complain_at(reader, reader->words->line,
                           "$var needs a type, a number of bits, an identifier and a name"));
}

static bool has_levels(const struct vcd_words *words)
{
    return !vcd_words_are(words, "event") && !vcd_words_are(words, "real")
        && !vcd_words_are(words, "realtime") && !vcd_words_are(words, "string");
}

/* Puts the words of a name behind the scopes; some programs leave a blank before an index. */
static bool read_name(struct reader *reader, size_t *length)
{
    *length = reader->path_length;
    if (!need_part(reader)) {
        return false;
    }
    while (!at_end_word(reader)) {
        const struct vcd_words *words = reader->words;
        if (*length + words->length >= PATH_LIMIT || words->length >= VCD_WORD_LIMIT) {
            return complain_at(reader, words->line, "the name of a wire is too long");
        }
        memcpy(reader->path + *length, words->text, words->length + 1);
        *length += words->length;
        if (!need_word(reader, "$var")) {
            return false;
        }
    }
    return true;
}

static bool read_var(struct reader *reader)
{
    const struct vcd_words *words = reader->words;
    struct wire found = {.line = words->line};
    size_t length;
    if (!need_part(reader)) {
        return false;
    }
    bool levels = has_levels(words);
    if (!need_part(reader)) {
        return false;
    }
    found.is_bit = levels && vcd_words_are(words, "1");
    /* Any characters can be an identifier, even $end. */
    if (!need_word(reader, "$var")) {
        return false;
    }
    if (words->length >= IDENTIFIER_LIMIT) {
        return complain_at(reader, words->line, "the identifier '%s' is too long",
                           quote_word(reader).text);
    }
    memcpy(found.identifier, words->text, words->length + 1);
    if (!read_name(reader, &length)) {
        return false;
    }
    note_path(reader, length, &found);
    return true;
}

static bool check_wires(const struct reader *reader)
{
    for (unsigned line = 0; line < VCD_WIRES; line++) {
        const struct wire *wire = &reader->wires[line];
        const char *wanted = reader->choice->wire[line];
        if (wire->identifier[0] == '\0') {
            return complain_at(reader, reader->words->line,
                               "no wire '%s' is declared up to here: %s gives its name", wanted,
                               vcd_wire_options[line]);
        }
        if (wire->other_line != 0) {
            return complain_at(reader, wire->other_line,
                               "another wire '%s' is declared in line %zu: %s with scopes, as in "
                               "scope.%s, tells them apart", wanted, wire->line,
                               vcd_wire_options[line], wanted);
        }
        if (!wire->is_bit) {
            return complain_at(reader, wire->line, "'%s' is not one bit with levels", wanted);
        }
    }
    return true;
}

static bool read_declarations(struct reader *reader)
{
    for (;;) {
        const struct vcd_words *words = reader->words;
        bool read;
        if (!need_word(reader, "the declarations: there is no $enddefinitions")) {
            return false;
        }
        if (vcd_words_are(words, "$enddefinitions")) {
            return check_wires(reader) && need_end(reader, "$enddefinitions");
        }
        if (vcd_words_are(words, "$scope")) {
            read = read_scope(reader);
        } else if (vcd_words_are(words, "$upscope")) {
            read = read_upscope(reader);
        } else if (vcd_words_are(words, "$var")) {
            read = read_var(reader);
        } else if (words->text[0] == '$' && !at_end_word(reader)) {
            read = skip(reader, "a declaration: there is no $end");
        } else {
            return complain_at(reader, words->line,
                               "'%s': expected a declaration, $var for example",
                               quote_word(reader).text);
        }
        if (!read) {
            return false;
        }
    }
}

/* ---------------------------------------------------------------- cycles */

static bool take_cycle(struct reader *reader)
{
    struct vcd_room *room = reader->room;
    unsigned lines = 0;
    for (unsigned line = 0; line < VCD_WIRES; line++) {
        const struct wire *wire = &reader->wires[line];
        const char *wanted = reader->choice->wire[line];
        if (wire->level == NO_LEVEL) {
            return complain_at(reader, reader->words->line,
                               "wire '%s' has no level yet at time %" PRIu64 ", in cycle %zu",
                               wanted, reader->next, room->count);
        }
        if (wire->level != '0' && wire->level != '1') {
            return complain_at(reader, wire->level_line,
                               "wire '%s' is %c at time %" PRIu64 ", in cycle %zu: expected 0 or 1",
                               wanted, wire->level, reader->next, room->count);
        }
        lines |= (unsigned)(wire->level == '1') << line;
    }
    if (room->count == 0) {
        room->start = reader->next;
    }
    room->cycles[room->count++] = (uint8_t)lines;
    return true;
}

static bool is_full(const struct reader *reader)
{
    return reader->over || reader->room->count == reader->room->most
        || (reader->choice->has_to && reader->next >= reader->choice->to);
}

/* Takes the cycles before this time: the levels hold up to it. */
static bool take_cycles(struct reader *reader, uint64_t end)
{
    while (!is_full(reader) && reader->next < end) {
        if (!take_cycle(reader)) {
            return false;
        }
        reader->over = reader->next > UINT64_MAX - reader->choice->period;
        reader->next += reader->over ? 0 : reader->choice->period;
    }
    return true;
}

static bool read_time(struct reader *reader)
{
    const struct vcd_words *words = reader->words;
    uint64_t time;
    if (!word_number(words->text + 1, words->length - 1, 10, UINT64_MAX, &time)) {
        return complain_at(reader, words->line,
                           "time '%s': expected # and a number of at most 64 bits",
                           quote_word(reader).text);
    }
    if (reader->has_time && time < reader->time) {
        return complain_at(reader, words->line, "time '%s' is before the one above it",
                           quote_word(reader).text);
    }
    if (!reader->has_time && !reader->choice->has_from) {
        reader->next = time;
    }
    reader->has_time = true;
    reader->time = time;
    return take_cycles(reader, time);
}

/* ---------------------------------------------------------------- changes */

static void set_level(struct reader *reader, const char *identifier, char level, size_t line)
{
    for (unsigned n = 0; n < VCD_WIRES; n++) {
        struct wire *wire = &reader->wires[n];
        if (strcmp(wire->identifier, identifier) == 0) {
            wire->level = level;
            wire->level_line = line;
        }
    }
}

/* A damaged file may have a NUL, which ends the list. */
static bool is_one_of(char byte, const char *list)
{
    return byte != '\0' && strchr(list, byte) != NULL;
}

/* A vector, a number or a string: a word, and the identifier as the next. */
static bool read_vector(struct reader *reader)
{
    const struct vcd_words *words = reader->words;
    bool bit = is_one_of(words->text[0], "bB") && words->length == 2
            && is_one_of(words->text[1], all_levels);
    char level = bit ? words->text[1] : '?';
    size_t line = words->line;
    if (!need_word(reader, "a change of value")) {
        return false;
    }
    set_level(reader, words->text, level, line);
    return true;
}

/* What begins with a $ among the changes. Those inside a dump are read as all others are. */
static bool read_keyword(struct reader *reader)
{
    static const char *const around_changes[] = {
        "$dumpvars", "$dumpall", "$dumpon", "$dumpoff", "$end"
    };
    for (size_t n = 0; n < sizeof around_changes / sizeof around_changes[0]; n++) {
        if (vcd_words_are(reader->words, around_changes[n])) {
            return true;
        }
    }
    return skip(reader, "a comment: there is no $end");
}

static bool read_change(struct reader *reader)
{
    const struct vcd_words *words = reader->words;
    char first = words->text[0];
    if (first == '#') {
        return read_time(reader);
    }
    if (first == '$') {
        return read_keyword(reader);
    }
    if (is_one_of(first, "bBrRsS")) {
        return read_vector(reader);
    }
    if (is_one_of(first, all_levels) && words->length > 1) {
        set_level(reader, words->text + 1, first, words->line);
        return true;
    }
    return complain_at(reader, words->line, "'%s': expected a time or a change of value",
                       quote_word(reader).text);
}

static bool read_changes(struct reader *reader)
{
    while (!is_full(reader) && vcd_words_next(reader->words)) {
        if (!read_change(reader)) {
            return false;
        }
    }
    if (ferror(reader->words->file)) {
        files_message(reader->name, errno);
        return false;
    }
    return !reader->choice->has_to || take_cycles(reader, reader->choice->to);
}

bool vcd_read(struct vcd_words *words, const char *name, const struct vcd_choice *choice,
              struct vcd_room *room)
{
    struct reader reader = {
        .words = words,
        .name = name,
        .choice = choice,
        .room = room,
        .next = choice->from,
    };
    room->count = 0;
    return read_declarations(&reader) && read_changes(&reader);
}
