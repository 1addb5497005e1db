/*
 * fuzz.c: drives the C calls of the library at random and holds each to pl022.h.
 *
 *     fuzz SEED SECONDS [CASE]
 *
 * Time decides only how many cases are run, never what a case does. With CASE only that
 * one is run. The status is 0 if nothing failed and enough was reached.
 */
#include <inttypes.h>
#include <stdio.h>
#include <stdlib.h>
#include <time.h>

#include "arena.h"
#include "draw.h"
#include "promise.h"
#include "report.h"
#include "session.h"
#include "tally.h"

enum { LEAST_CALLS_A_SECOND = 2000, RERUN_EVERY = 16 };

static uint64_t parse(const char *text)
{
    char *end = NULL;
    uint64_t number = strtoull(text, &end, 0);
    if (text[0] < '0' || text[0] > '9' || *end != '\0') {
        fprintf(stderr, "fuzz: not a number: %s\n", text);
        exit(2);
    }
    return number;
}

static double seconds_now(void)
{
    struct timespec now;
    clock_gettime(CLOCK_MONOTONIC, &now);
    return (double)now.tv_sec + (double)now.tv_nsec / 1e9;
}

/* What the case drew and what it was answered, as one number. */
static uint64_t run_case(uint64_t seed, uint64_t number)
{
    report_case(number);
    draw_seed(seed, number);
    session();
    return tally_digest() ^ draw_place();
}

/* Runs a share of the cases twice: a case that time or an older case enters would differ. */
static void fuzz_case(uint64_t seed, uint64_t number)
{
    uint64_t digest = run_case(seed, number);
    if (number % RERUN_EVERY == 0) {
        report_unless(run_case(seed, number) == digest, "a case run again went another way");
    }
}

static uint64_t fuzz_for(uint64_t seed, double seconds)
{
    double end = seconds_now() + seconds;
    uint64_t number = 0;
    do {
        fuzz_case(seed, number++);
    } while (seconds_now() < end);
    return number;
}

int main(int argc, char **argv)
{
    if (argc != 3 && argc != 4) {
        fputs("usage: fuzz SEED SECONDS [CASE]\n", stderr);
        return 2;
    }
    uint64_t seed = parse(argv[1]);
    uint64_t seconds = parse(argv[2]);

    report_open(seed);
    arena_open();
    if (argc == 4) {
        fuzz_case(seed, parse(argv[3]));
        printf("fuzz: case %s of seed %" PRIu64 " held, %" PRIu64 " calls\n",
               argv[3], seed, tally_calls());
        return 0;
    }
    judge_wide_lengths();
    uint64_t cases = fuzz_for(seed, (double)seconds);
    printf("fuzz: seed %" PRIu64 ", %" PRIu64 " s, %" PRIu64 " cases, %" PRIu64 " calls",
           seed, seconds, cases, tally_calls());
    tally_print();
    putchar('\n');
    if (tally_calls() < LEAST_CALLS_A_SECOND * seconds) {
        fprintf(stderr, "fuzz: too few calls, at least %d a second are due\n",
                LEAST_CALLS_A_SECOND);
        return 1;
    }
    return tally_complete() ? 0 : 1;
}
