#include "command.h"

#include <stdarg.h>
#include <stdbool.h>
#include <stdio.h>
#include <string.h>

#include "bench.h"
#include "word.h"

enum { MOST_WORDS = 4 };

struct word {
    char *text;
    size_t length;
};

static const struct form {
    const char *name;
    enum verb verb;
    size_t least; /* words, the name included */
    size_t most;
    const char *usage;
} forms[] = {
    {"reset", VERB_RESET, 2, 3, "reset D [EDITION]"},
    {"r", VERB_READ, 3, 3, "r D OFFSET"},
    {"w", VERB_WRITE, 4, 4, "w D OFFSET VALUE"},
    {"run", VERB_RUN, 3, 3, "run D INPUTS"},
    {"idle", VERB_IDLE, 3, 3, "idle D INPUTS"},
    {"pair", VERB_PAIR, 2, 2, "pair N"},
    {"dump", VERB_DUMP, 2, 2, "dump D"},
    {"judge", VERB_JUDGE, 4, 4, "judge CR0 CPSR DIGITS"},
};

static bool is_blank(char byte)
{
    return byte == ' ' || byte == '\t';
}

static struct quoted quote(const struct word *word)
{
    return word_quote(word->text, word->length);
}

/* Always false, so that a check can return it. */
static bool complain(struct complaint *complaint, const char *format, ...)
{
    va_list arguments;
    va_start(arguments, format);
    vsnprintf(complaint->text, sizeof complaint->text, format, arguments);
    va_end(arguments);
    return false;
}

/* The number of words, which may be more than are kept. */
static size_t split(char *line, size_t length, struct word words[MOST_WORDS])
{
    size_t count = 0;
    for (size_t at = 0; at < length;) {
        if (is_blank(line[at])) {
            at++;
            continue;
        }
        size_t start = at;
        while (at < length && !is_blank(line[at])) {
            at++;
        }
        if (count < MOST_WORDS) {
            words[count] = (struct word){line + start, at - start};
        }
        count++;
    }
    return count;
}

/* The place of the first byte that is no digit of the base, or the word's length. */
static size_t digits(const struct word *word, unsigned base)
{
    size_t n = 0;
    while (n < word->length && word_digit(word->text[n]) < base) {
        n++;
    }
    return n;
}

static bool parse_device(const struct word *word, unsigned *device, struct complaint *complaint)
{
    if (word->length != 1 || (word->text[0] != '0' && word->text[0] != '1')) {
        return complain(complaint, "device '%s': expected 0 or 1", quote(word).text);
    }
    *device = word->text[0] == '1';
    return true;
}

static bool parse_hex(const char *what, const struct word *word, uint32_t *number,
                      struct complaint *complaint)
{
    if (digits(word, 16) < word->length) {
        return complain(complaint,
                        "%s '%s' is not hexadecimal: expected digits 0 to 9 and a to f, "
                        "no prefix and no sign", what, quote(word).text);
    }
    uint64_t sum;
    if (!word_number(word->text, word->length, 16, UINT32_MAX, &sum)) {
        return complain(complaint, "%s '%s' is above 32 bits: expected ffffffff or less",
                        what, quote(word).text);
    }
    *number = (uint32_t)sum;
    return true;
}

static bool too_many_cycles(struct complaint *complaint)
{
    return complain(complaint, "too many cycles: expected %lu or less in a command",
                    (unsigned long)MOST_CYCLES);
}

static bool parse_cycles(const struct word *word, size_t *cycles, struct complaint *complaint)
{
    if (digits(word, 10) < word->length) {
        return complain(complaint,
                        "number of cycles '%s' is not decimal: expected digits 0 to 9, no sign",
                        quote(word).text);
    }
    uint64_t sum;
    if (!word_number(word->text, word->length, 10, MOST_CYCLES, &sum)) {
        return too_many_cycles(complaint);
    }
    *cycles = (size_t)sum;
    return true;
}

/*
 * Digits above 7 pass, and recordings too long to be judged: refusing them is the library's
 * part.
 */
static bool parse_recording(const struct word *word, struct command *command,
                            struct complaint *complaint)
{
    uint8_t *bytes = (uint8_t *)word->text;
    bool none = word->length == 1 && word->text[0] == '-';
    size_t cycles = none ? 0 : word->length;
    size_t good = none ? 0 : digits(word, 16);
    if (good < cycles) {
        struct word bad = {word->text + good, 1};
        return complain(complaint,
                        "'%s' at place %zu of the recording: expected a hexadecimal digit for "
                        "each cycle, or - alone", quote(&bad).text, good + 1);
    }
    if (cycles > MOST_CYCLES) {
        return too_many_cycles(complaint);
    }
    for (size_t n = 0; n < cycles; n++) {
        bytes[n] = (uint8_t)word_digit(word->text[n]);
    }
    command->digits = bytes;
    command->cycles = cycles;
    return true;
}

static const struct form *find_form(const struct word *word)
{
    for (size_t n = 0; n < sizeof forms / sizeof forms[0]; n++) {
        size_t length = strlen(forms[n].name);
        if (word->length == length && memcmp(word->text, forms[n].name, length) == 0) {
            return &forms[n];
        }
    }
    return NULL;
}

/* A word that was left out has no text. Any edition passes: refusing one is the library's part. */
static bool parse_words(const struct word *words, struct command *command,
                        struct complaint *complaint)
{
    if (command->verb == VERB_PAIR) {
        return parse_cycles(&words[1], &command->cycles, complaint);
    }
    if (command->verb == VERB_JUDGE) {
        return parse_hex("CR0", &words[1], &command->cr0, complaint)
            && parse_hex("CPSR", &words[2], &command->cpsr, complaint)
            && parse_recording(&words[3], command, complaint);
    }
    if (!parse_device(&words[1], &command->device, complaint)) {
        return false;
    }
    switch (command->verb) {
    case VERB_RESET:
        return words[2].text == NULL
            || parse_hex("edition", &words[2], &command->edition, complaint);
    case VERB_READ:
        return parse_hex("offset", &words[2], &command->offset, complaint);
    case VERB_WRITE:
        return parse_hex("offset", &words[2], &command->offset, complaint)
            && parse_hex("value", &words[3], &command->value, complaint);
    case VERB_RUN:
    case VERB_IDLE:
        return parse_recording(&words[2], command, complaint);
    default:
        return true;
    }
}

enum parse_status command_parse(char *line, size_t length, struct command *command,
                                struct complaint *complaint)
{
    struct word words[MOST_WORDS] = {{NULL, 0}};
    size_t count = split(line, length, words);
    if (count == 0 || words[0].text[0] == '#') {
        return PARSE_NOTHING;
    }
    const struct form *form = find_form(&words[0]);
    if (form == NULL) {
        complain(complaint,
                 "unknown command '%s': expected reset, r, w, run, idle, pair, dump or judge",
                 quote(&words[0]).text);
        return PARSE_BAD;
    }
    if (count < form->least || count > form->most) {
        complain(complaint, "wrong number of words, %zu: expected %s", count, form->usage);
        return PARSE_BAD;
    }
    *command = (struct command){.verb = form->verb, .edition = PL022_EDITION_1};
    return parse_words(words, command, complaint) ? PARSE_COMMAND : PARSE_BAD;
}
