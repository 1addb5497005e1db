/* command.h: one line of a script, taken apart. */
#ifndef COMMAND_H
#define COMMAND_H

#include <stddef.h>
#include <stdint.h>

enum verb {
    VERB_RESET, VERB_READ, VERB_WRITE, VERB_RUN, VERB_IDLE, VERB_PAIR, VERB_DUMP, VERB_JUDGE
};

struct command {
    enum verb verb;
    unsigned device;      /* 0 or 1; not for a pair or a judgement */
    uint32_t edition;     /* reset */
    uint32_t offset;      /* read, write */
    uint32_t value;       /* write */
    uint32_t cr0;         /* judge */
    uint32_t cpsr;        /* judge */
    size_t cycles;        /* run, idle, pair, judge */
    const uint8_t *digits; /* run, idle, judge: a byte a cycle, within the line that was parsed */
};

/* What was expected, when a line is no command. */
struct complaint {
    char text[200];
};

enum parse_status { PARSE_COMMAND, PARSE_NOTHING, PARSE_BAD };

/*
 * Takes a line apart. PARSE_NOTHING: blank, or a comment. PARSE_BAD: see the
 * complaint. The digits of a recording are turned into bytes where they
 * stand, so that a long recording needs no second buffer; the line must outlive
 * the command.
 */
enum parse_status command_parse(char *line, size_t length, struct command *command,
                                struct complaint *complaint);

#endif
