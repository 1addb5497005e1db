/*
 * report.h: says what went wrong and how to see it again, and ends the program.
 */
#ifndef FUZZ_REPORT_H
#define FUZZ_REPORT_H

#include "calls.h"

/* Catches the signals that a fault inside a call raises. */
void report_open(uint64_t seed);

/* A new case begins; it is a failure if it does not end in a generous time. */
void report_case(uint64_t number);

void report_call(const struct request *request);
void report_answer(const struct outcome *outcome);

_Noreturn void report_failure(const char *what);

void report_unless(bool held, const char *what);

#endif
