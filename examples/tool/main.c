/*
 * pl022: runs a script of register accesses and cycles on two models of the PL022
 * serial port; or draws, judges or compares recordings. docs/SCRIPTS.md describes the
 * scripts and the options.
 */
#include <errno.h>
#include <inttypes.h>
#include <signal.h>
#include <stdlib.h>

#include "answer.h"
#include "bench.h"
#include "command.h"
#include "diagram.h"
#include "files.h"
#include "judge.h"
#include "options.h"
#include "recorder.h"
#include "script.h"
#include "text.h"
#include "vcd.h"

static const char record_refused[] = "the library refuses a record that it made";

struct session {
    const struct options *options;
    struct script script;
    struct bench bench;
    struct diagram diagram;
    struct vcd vcd;
    struct recorder recorder;
    uint64_t time; /* cycles so far */
};

static enum status bad_script(const struct session *session, const char *message)
{
    fprintf(stderr, "pl022: %s:%lu: %s\n", files_input_name(session->options->input[0]),
            session->script.number, message);
    return STATUS_WRONG;
}

static enum status line_too_long(const struct session *session)
{
    char message[120];
    snprintf(message, sizeof message,
             "line too long: expected %zu bytes or less, and %zu cycles or less in a command",
             SCRIPT_LINE_LIMIT, MOST_CYCLES);
    return bad_script(session, message);
}

/*
 * Answers leave at once, so that they stand before any message, and a program at the
 * other end of a pipe can wait for them. errno must have been 0 before they were put.
 */
static enum status flush_answers(void)
{
    if (fflush(stdout) == 0 && !ferror(stdout)) {
        return STATUS_DONE;
    }
    files_message("standard output", errno);
    return STATUS_FILES;
}

/* A record that the library made and then refuses, or no memory: neither is the script's fault. */
static enum status give_up(const char *reason)
{
    fprintf(stderr, "pl022: %s\n", reason);
    return STATUS_FILES;
}

static enum status print_answer(struct session *session, const struct command *command)
{
    errno = 0;
    switch (answer(command, &session->bench, stdout)) {
    case ANSWER_NO_MEMORY:
        return give_up("out of memory");
    case ANSWER_PAIR_REFUSED:
        return give_up(record_refused);
    case ANSWER_GIVEN:
        break;
    }
    if (session->options->lost) {
        answer_lost(&session->bench, stdout);
    }
    if (session->options->diagram) {
        diagram_draw(&session->diagram, &session->bench, session->time, stdout);
    }
    return flush_answers();
}

/* The recorder repeats the command afterwards, so that no answer depends on it. */
static enum status carry_out(struct session *session, const struct command *command)
{
    if (session->recorder.file != NULL) {
        recorder_prepare(&session->recorder, &session->bench);
    }
    if (print_answer(session, command) != STATUS_DONE) {
        return STATUS_FILES;
    }
    if (session->recorder.file != NULL && !recorder_add(&session->recorder, &session->bench)) {
        return give_up(record_refused);
    }
    if (session->vcd.file != NULL) {
        vcd_add(&session->vcd, &session->bench);
    }
    session->time += bench_cycles(&session->bench);
    return session->vcd.error != 0 ? STATUS_FILES : STATUS_DONE;
}

static enum status do_line(struct session *session)
{
    struct command command;
    struct complaint complaint;
    switch (command_parse(session->script.text, session->script.length, &command, &complaint)) {
    case PARSE_COMMAND:
        return carry_out(session, &command);
    case PARSE_BAD:
        return bad_script(session, complaint.text);
    case PARSE_NOTHING:
        break;
    }
    return STATUS_DONE;
}

static enum status run_script(struct session *session)
{
    for (;;) {
        enum status status;
        switch (script_next(&session->script)) {
        case SCRIPT_LINE:
            status = do_line(session);
            if (status != STATUS_DONE) {
                return status;
            }
            break;
        case SCRIPT_LINE_TOO_LONG:
            return line_too_long(session);
        case SCRIPT_FAILED:
            files_message(files_input_name(session->options->input[0]), errno);
            return STATUS_FILES;
        case SCRIPT_END:
            return STATUS_DONE;
        }
    }
}

static enum status end_vcd(struct session *session)
{
    if (session->vcd.file == NULL) {
        return STATUS_DONE;
    }
    vcd_end(&session->vcd);
    if (session->vcd.error != 0) {
        files_message(session->options->output[OUTPUT_VCD], session->vcd.error);
        return STATUS_FILES;
    }
    return STATUS_DONE;
}

static enum status end_text(struct session *session)
{
    const char *name = session->options->output[OUTPUT_TEXT];
    struct recorder *recorder = &session->recorder;
    if (recorder->file == NULL) {
        return STATUS_DONE;
    }
    recorder_end(recorder);
    if (recorder->refusal != PL022_DONE) {
        fprintf(stderr, "pl022: %s: refused with %" PRIu64 ": %s\n", name, recorder->refusal,
                text_refusal(recorder->refusal));
        return STATUS_FILES;
    }
    if (recorder->error != 0) {
        files_message(name, recorder->error);
        return STATUS_FILES;
    }
    return STATUS_DONE;
}

/* Ends dump and text also after a bad script: they hold the cycles up to there. */
static enum status run_session(struct session *session)
{
    FILE *files[OUTPUTS];
    if (!files_open_outputs(session->options->output, session->script.file, files)) {
        return STATUS_FILES;
    }
    bench_begin(&session->bench);
    if (files[OUTPUT_VCD] != NULL) {
        vcd_begin(&session->vcd, files[OUTPUT_VCD], &session->bench);
    }
    if (files[OUTPUT_TEXT] != NULL) {
        recorder_begin(&session->recorder, files[OUTPUT_TEXT]);
    }
    enum status status = run_script(session);
    enum status vcd_status = end_vcd(session);
    enum status text_status = end_text(session);
    bool ended = vcd_status == STATUS_DONE && text_status == STATUS_DONE;
    return ended ? status : STATUS_FILES;
}

static struct diagram diagram_wanted(const struct options *options)
{
    return (struct diagram){.ascii = options->ascii, .columns = diagram_columns()};
}

static enum status answer_script(const struct options *options, FILE *script)
{
    struct session session = {
        .options = options,
        .script = {.file = script},
        .diagram = diagram_wanted(options),
    };
    enum status status = run_session(&session);
    script_free(&session.script);
    bench_free(&session.bench);
    return status;
}

static enum status draw_text(const struct options *options, FILE *file)
{
    struct diagram diagram = diagram_wanted(options);
    enum status status = text_draw(file, files_input_name(options->input[0]), &diagram, stdout);
    return status == STATUS_DONE ? flush_answers() : status;
}

static enum status read_input(const struct options *options)
{
    FILE *file = files_open_input(options->input[0]);
    if (file == NULL) {
        return STATUS_FILES;
    }
    enum status status = options->task == TASK_TEXT ? draw_text(options, file)
                                                    : answer_script(options, file);
    files_close_input(file);
    return status;
}

static enum verdict give_verdict(const struct options *options)
{
    struct diagram diagram = diagram_wanted(options);
    enum verdict verdict = options->task == TASK_JUDGE
                         ? judge_recording(options, &diagram, stdout)
                         : judge_difference(options, &diagram, stdout);
    return flush_answers() == STATUS_DONE ? verdict : VERDICT_TROUBLE;
}

int main(int count, char **words)
{
    struct options options;
    files_hold_descriptors();
    /* A reader that went away is a failed write with a status, not a signal. */
    signal(SIGPIPE, SIG_IGN);
    if (!options_parse(&options, count, words)) {
        return STATUS_WRONG;
    }
    if (options.help) {
        errno = 0;
        options_usage(stdout);
        return (int)flush_answers();
    }
    bool judges = options.task == TASK_JUDGE || options.task == TASK_DIFFERENCE;
    return judges ? (int)give_verdict(&options) : (int)read_input(&options);
}
