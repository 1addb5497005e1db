/*
 * session_recording.h: recordings that the library makes, right, damaged and cut, and drawn
 * ones: judged, and compared with each other.
 */
#ifndef FUZZ_SESSION_RECORDING_H
#define FUZZ_SESSION_RECORDING_H

void session_recording(void);

#endif
