/*
 * session_text.h: drawn recordings, written as text and read back, and drawn texts.
 */
#ifndef FUZZ_SESSION_TEXT_H
#define FUZZ_SESSION_TEXT_H

void session_text(void);

#endif
