/* options.h: the command line. */
#ifndef OPTIONS_H
#define OPTIONS_H

#include <stdbool.h>
#include <stdint.h>
#include <stdio.h>

#include "files.h"
#include "vcd_read.h"

/* The tool's exit statuses, but for those of judge and difference. */
enum status { STATUS_DONE = 0, STATUS_FILES = 1, STATUS_WRONG = 2 };

/* What the tool is asked to do. */
enum task { TASK_SCRIPT, TASK_TEXT, TASK_JUDGE, TASK_DIFFERENCE, TASKS };

enum { MOST_INPUTS = 2 };

struct options {
    enum task task;
    bool help;
    bool lost;
    bool diagram;
    bool ascii;
    const char *output[OUTPUTS];        /* file names, or NULL */
    const char *input[MOST_INPUTS];     /* file names, or NULL for standard input */
    uint32_t cr0;                       /* judge */
    uint32_t cpsr;                      /* judge */
    struct vcd_choice vcd[MOST_INPUTS]; /* what to take from each input that is a dump */
    const char *vcd_option;             /* an option that says so and was given, or NULL */
};

/* False after a message with the usage on standard error. */
bool options_parse(struct options *options, int count, char **words);

void options_usage(FILE *out);

#endif
