#include "report.h"

#include <inttypes.h>
#include <signal.h>
#include <stdio.h>
#include <string.h>
#include <unistd.h>

enum { CASE_SECONDS = 30 };

/* The sanitizers ask these: their reports end in an abort, so that the call is shown too. */
const char *__asan_default_options(void);
const char *__ubsan_default_options(void);

const char *__asan_default_options(void)
{
    return "abort_on_error=1";
}

const char *__ubsan_default_options(void)
{
    return "abort_on_error=1";
}

static struct {
    uint64_t seed;
    uint64_t number;
    uint64_t calls;
    const struct request *request;
    const struct outcome *outcome;
} current;

static void print_bytes(const char *when, enum role role, const struct bytes *bytes)
{
    fprintf(stderr, "  %s %s %zu bytes ", role_name(role), when, bytes->length);
    for (size_t i = 0; i < bytes->length; i++) {
        fprintf(stderr, "%02x", bytes->data[i]);
    }
    fputc('\n', stderr);
}

static void print_call(void)
{
    const struct request *request = current.request;

    fprintf(stderr, "fuzz: seed %" PRIu64 " case %" PRIu64 " call %" PRIu64
            " (FUZZ_SEED and FUZZ_CASE run it again)\n",
            current.seed, current.number, current.calls);
    if (request == NULL) {
        return;
    }
    fprintf(stderr, "  %s offset 0x%" PRIx32 " value 0x%" PRIx32 " cycles 0x%" PRIx64
            " CR0 0x%" PRIx32 " CPSR 0x%" PRIx32 "\n", call_name(request->call), request->offset,
            request->value, request->cycles, request->cr0, request->cpsr);
    for (unsigned role = 0; role < ROLES; role++) {
        if (call_lends(request->call, role)) {
            print_bytes("lent", role, &request->lent[role]);
        }
    }
    if (current.outcome == NULL) {
        fputs("  no answer\n", stderr);
        return;
    }
    const struct pl022_lost *lost = current.outcome->lost;
    fprintf(stderr, "  answer %" PRIu64 " with 0x%" PRIx64 " and 0x%" PRIx64 ", lost %" PRIu64
            " last 0x%" PRIx64 ", second %" PRIu64 " last 0x%" PRIx64 "\n",
            current.outcome->refusal, current.outcome->result, current.outcome->starts,
            lost[ROLE_RECORD].count, lost[ROLE_RECORD].last,
            lost[ROLE_SECOND].count, lost[ROLE_SECOND].last);
    const struct pl022_part *part = &current.outcome->part;
    fprintf(stderr, "  part of %s from %" PRIu64 ", length %" PRIu64 "\n",
            part->second == 0 ? "the first" : "the second", part->start, part->length);
    for (unsigned role = 0; role < ROLES; role++) {
        if (call_lends(request->call, role)) {
            print_bytes("left", role, &current.outcome->after[role]);
        }
    }
}

_Noreturn void report_failure(const char *what)
{
    fprintf(stderr, "fuzz: FAILED: %s\n", what);
    print_call();
    _exit(1);
}

void report_unless(bool held, const char *what)
{
    if (!held) {
        report_failure(what);
    }
}

/* Printing is safe here: these signals cannot interrupt a print, since the program prints
 * nothing while it makes calls. */
static void on_signal(int number)
{
    report_failure(strsignal(number));
}

void report_open(uint64_t seed)
{
    static const int caught[] = {SIGSEGV, SIGBUS, SIGILL, SIGFPE, SIGABRT, SIGTRAP, SIGALRM};
    struct sigaction action;

    current.seed = seed;
    memset(&action, 0, sizeof action);
    action.sa_handler = on_signal;
    sigemptyset(&action.sa_mask);
    for (size_t i = 0; i < sizeof caught / sizeof caught[0]; i++) {
        sigaction(caught[i], &action, NULL);
    }
}

void report_case(uint64_t number)
{
    current.number = number;
    current.calls = 0;
    current.request = NULL;
    current.outcome = NULL;
    alarm(CASE_SECONDS);
}

void report_call(const struct request *request)
{
    current.calls++;
    current.request = request;
    current.outcome = NULL;
}

void report_answer(const struct outcome *outcome)
{
    current.outcome = outcome;
}
