/*
 * session.h: a case: two devices and a drawn sequence of calls on them.
 */
#ifndef FUZZ_SESSION_H
#define FUZZ_SESSION_H

void session(void);

#endif
