#include "options.h"

#include <string.h>

#include "word.h"

void options_usage(FILE *out)
{
    fputs("usage: pl022 [--lost] [--diagram] [--ascii] [--vcd FILE] [--text FILE] [SCRIPT]\n"
          "       pl022 text [--ascii] [FILE]\n"
          "       pl022 judge --cr0 X --cpsr X [--ascii] [VCD OPTIONS] [FILE]\n"
          "       pl022 difference [--ascii] [VCD OPTIONS] FILE FILE\n"
          "Runs a script on two models of the PL022 serial port and prints an answer for\n"
          "each command; or draws a recording that was written with --text; or judges\n"
          "whether a recording, text or VCD, is that of a master with CR0 and CPSR; or\n"
          "finds the first difference of two recordings. Without SCRIPT or FILE, or with\n"
          "-, standard input is read.\n"
          "  --lost       print the words lost to overrun after each run, idle and pair: how\n"
          "               many, and the last of them\n"
          "  --diagram    draw a timing diagram after each run, idle and pair\n"
          "  --ascii      draw with plain ASCII characters\n"
          "  --vcd FILE   write all cycles to FILE as a value change dump\n"
          "  --text FILE  write the master's cycles to FILE as text, one frame a line\n"
          "  --cr0 X, --cpsr X  settings, hexadecimal, as they would be written\n"
          "  --help       print this\n"
          "  --           what follows is a file's name, even text, judge or difference\n"
          "VCD OPTIONS, in difference once for both files or once for each:\n"
          "  --clk, --fss, --txd, --nsspoe NAME  the wires, clk0 to nsspoe0 if not given\n"
          "  --period N   units of time in a cycle, 1 if not given\n"
          "  --from N, --to N  the time of the first cycle, and that behind the last one\n"
          "Commands: reset D [EDITION], r D OFFSET, w D OFFSET VALUE, run D INPUTS,\n"
          "idle D INPUTS, pair N, dump D, judge CR0 CPSR DIGITS.\n"
          "Statuses: 0 done, 1 a file failed or the recording is too long for --text,\n"
          "2 wrong usage, script or text. Of judge and difference: 0 accepted, or no\n"
          "difference; 1 refused, or a difference; 2 wrong usage, or a file failed.\n",
          out);
}

static bool wrong_usage(const char *message, const char *word)
{
    fprintf(stderr, "pl022: %s%s\n", message, word);
    options_usage(stderr);
    return false;
}

static const char *const task_names[TASKS] = {"a script", "text", "judge", "difference"};

enum {
    FOR_SCRIPT = 1 << TASK_SCRIPT,
    FOR_JUDGE = 1 << TASK_JUDGE,
    FOR_RECORDINGS = FOR_JUDGE | 1 << TASK_DIFFERENCE,
    FOR_ALL = (1 << TASKS) - 1
};

enum option {
    OPTION_HELP, OPTION_LOST, OPTION_DIAGRAM, OPTION_ASCII, OPTION_VCD, OPTION_TEXT,
    OPTION_CR0, OPTION_CPSR,
    OPTION_WIRES, /* one for each line */
    OPTION_PERIOD = OPTION_WIRES + VCD_WIRES,
    OPTION_FROM, OPTION_TO,
    OPTION_COUNT
};

static const char a_file[] = "a file name";
static const char a_wire[] = "the name of a wire";
static const char a_setting[] = "a hexadecimal number of at most 32 bits";
static const char a_time[] = "a decimal number of at most 64 bits";

static const struct form {
    const char *name;
    const char *value; /* what has to follow, or NULL */
    unsigned tasks;
} forms[OPTION_COUNT] = {
    [OPTION_HELP] = {"--help", NULL, FOR_ALL},
    [OPTION_LOST] = {"--lost", NULL, FOR_SCRIPT},
    [OPTION_DIAGRAM] = {"--diagram", NULL, FOR_SCRIPT},
    [OPTION_ASCII] = {"--ascii", NULL, FOR_ALL},
    [OPTION_VCD] = {"--vcd", a_file, FOR_SCRIPT},
    [OPTION_TEXT] = {"--text", a_file, FOR_SCRIPT},
    [OPTION_CR0] = {"--cr0", a_setting, FOR_JUDGE},
    [OPTION_CPSR] = {"--cpsr", a_setting, FOR_JUDGE},
    [OPTION_WIRES + LINE_CLK] = {"--clk", a_wire, FOR_RECORDINGS},
    [OPTION_WIRES + LINE_FSS] = {"--fss", a_wire, FOR_RECORDINGS},
    [OPTION_WIRES + LINE_TXD] = {"--txd", a_wire, FOR_RECORDINGS},
    [OPTION_WIRES + LINE_NSSPOE] = {"--nsspoe", a_wire, FOR_RECORDINGS},
    [OPTION_PERIOD] = {"--period", a_time, FOR_RECORDINGS},
    [OPTION_FROM] = {"--from", a_time, FOR_RECORDINGS},
    [OPTION_TO] = {"--to", a_time, FOR_RECORDINGS},
};

/* What the command line has, before it is known what for. */
struct command_line {
    bool only_names; /* behind -- */
    unsigned names;
    struct given {
        unsigned count;
        const char *value[MOST_INPUTS];
    } given[OPTION_COUNT];
};

/* The first name may be a command, unless -- stands before it. */
static bool take_name(struct options *options, struct command_line *line, const char *word)
{
    for (unsigned task = TASK_TEXT; task < TASKS; task++) {
        if (!line->only_names && line->names == 0 && options->task == TASK_SCRIPT
            && strcmp(word, task_names[task]) == 0) {
            options->task = (enum task)task;
            return true;
        }
    }
    if (line->names == (options->task == TASK_DIFFERENCE ? MOST_INPUTS : 1)) {
        return wrong_usage("expected no further file to read, but found ", word);
    }
    options->input[line->names++] = strcmp(word, "-") == 0 ? NULL : word;
    return true;
}

static enum option find_option(const char *word)
{
    unsigned option = 0;
    while (option < OPTION_COUNT && strcmp(word, forms[option].name) != 0) {
        option++;
    }
    return (enum option)option;
}

static bool wrong_value(enum option option)
{
    char message[100];
    snprintf(message, sizeof message, "expected %s after ", forms[option].value);
    return wrong_usage(message, forms[option].name);
}

/* The value is NULL if none is left. */
static bool take_option(struct command_line *line, enum option option, const char *value)
{
    struct given *given = &line->given[option];
    if (forms[option].value == NULL) {
        given->count = 1;
        return true;
    }
    bool standard = forms[option].value == a_file && value != NULL && strcmp(value, "-") == 0;
    if (value == NULL || standard || (value[0] == '\0' && forms[option].value != a_file)) {
        return wrong_value(option);
    }
    if (given->count == MOST_INPUTS) {
        return wrong_usage("given too often: ", forms[option].name);
    }
    given->value[given->count++] = value;
    return true;
}

/* An option that is for something else is a mistake, not to be ignored. */
static bool check_options(const struct options *options, const struct command_line *line)
{
    for (unsigned option = 0; option < OPTION_COUNT; option++) {
        unsigned count = line->given[option].count;
        bool in_pairs = options->task == TASK_DIFFERENCE && forms[option].tasks == FOR_RECORDINGS;
        if (count > 0 && (forms[option].tasks >> options->task & 1U) == 0) {
            char message[40];
            snprintf(message, sizeof message, "not for %s: ", task_names[options->task]);
            return wrong_usage(message, forms[option].name);
        }
        if (count > 1 && !in_pairs) {
            return wrong_usage("given twice: ", forms[option].name);
        }
    }
    return true;
}

/* Settings are hexadecimal, with 0x or without; times are decimal. */
static bool read_number(enum option option, const char *value, uint64_t *number)
{
    bool hexadecimal = forms[option].value == a_setting;
    bool prefixed = hexadecimal && value[0] == '0' && (value[1] == 'x' || value[1] == 'X');
    const char *digits = value + (prefixed ? 2 : 0);
    return word_number(digits, strlen(digits), hexadecimal ? 16 : 10,
                       hexadecimal ? UINT32_MAX : UINT64_MAX, number)
        || wrong_value(option);
}

/* The value that counts for an input; NULL if the option was not given. */
static const char *value_for(const struct command_line *line, enum option option, unsigned input)
{
    const struct given *given = &line->given[option];
    return given->count == 0 ? NULL : given->value[input < given->count ? input : 0];
}

/* Leaves the number if the option was not given. */
static bool number_for(const struct command_line *line, enum option option, unsigned input,
                       bool *is_given, uint64_t *number)
{
    const char *value = value_for(line, option, input);
    *is_given = value != NULL;
    return value == NULL || read_number(option, value, number);
}

static bool choose_vcd(struct vcd_choice *choice, const struct command_line *line, unsigned input)
{
    bool has_period;
    *choice = (struct vcd_choice){.period = 1};
    for (unsigned n = 0; n < VCD_WIRES; n++) {
        const char *name = value_for(line, (enum option)(OPTION_WIRES + n), input);
        choice->wire[n] = name != NULL ? name : vcd_usual_wires[n];
    }
    if (!number_for(line, OPTION_PERIOD, input, &has_period, &choice->period)
        || !number_for(line, OPTION_FROM, input, &choice->has_from, &choice->from)
        || !number_for(line, OPTION_TO, input, &choice->has_to, &choice->to)) {
        return false;
    }
    if (choice->period == 0) {
        return wrong_usage("expected 1 or more after ", forms[OPTION_PERIOD].name);
    }
    return !choice->has_from || !choice->has_to || choice->from <= choice->to
        || wrong_usage("expected no time below that of --from after ", forms[OPTION_TO].name);
}

/* What judge and difference need beyond names. */
static bool choose_recordings(struct options *options, const struct command_line *line)
{
    for (unsigned option = OPTION_WIRES; option < OPTION_COUNT; option++) {
        if (line->given[option].count > 0) {
            options->vcd_option = forms[option].name;
        }
    }
    return choose_vcd(&options->vcd[0], line, 0) && choose_vcd(&options->vcd[1], line, 1);
}

static bool choose_settings(struct options *options, const struct command_line *line)
{
    bool has_cr0, has_cpsr;
    uint64_t cr0 = 0, cpsr = 0;
    if (!number_for(line, OPTION_CR0, 0, &has_cr0, &cr0)
        || !number_for(line, OPTION_CPSR, 0, &has_cpsr, &cpsr)) {
        return false;
    }
    options->cr0 = (uint32_t)cr0;
    options->cpsr = (uint32_t)cpsr;
    return (has_cr0 && has_cpsr) || wrong_usage("expected --cr0 and --cpsr with ", "judge");
}

static bool choose(struct options *options, const struct command_line *line)
{
    options->help = line->given[OPTION_HELP].count > 0;
    options->lost = line->given[OPTION_LOST].count > 0;
    options->diagram = line->given[OPTION_DIAGRAM].count > 0;
    options->ascii = line->given[OPTION_ASCII].count > 0;
    options->output[OUTPUT_VCD] = value_for(line, OPTION_VCD, 0);
    options->output[OUTPUT_TEXT] = value_for(line, OPTION_TEXT, 0);
    if (options->help || options->task == TASK_SCRIPT || options->task == TASK_TEXT) {
        return true;
    }
    if (options->task == TASK_DIFFERENCE) {
        bool named = line->names == MOST_INPUTS
                  && (options->input[0] != NULL || options->input[1] != NULL);
        return (named || wrong_usage("expected two files with ", "difference"))
            && choose_recordings(options, line);
    }
    return choose_settings(options, line) && choose_recordings(options, line);
}

bool options_parse(struct options *options, int count, char **words)
{
    struct command_line line = {0};
    *options = (struct options){0};
    for (int n = 1; n < count; n++) {
        const char *word = words[n];
        if (line.only_names || word[0] != '-' || word[1] == '\0') {
            if (!take_name(options, &line, word)) {
                return false;
            }
        } else if (strcmp(word, "--") == 0) {
            line.only_names = true;
        } else {
            enum option option = find_option(word);
            if (option == OPTION_COUNT) {
                return wrong_usage("unknown option ", word);
            }
            n += forms[option].value != NULL;
            if (!take_option(&line, option, n < count ? words[n] : NULL)) {
                return false;
            }
        }
    }
    return check_options(options, &line) && choose(options, &line);
}
