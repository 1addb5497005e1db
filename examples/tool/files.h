/* files.h: the files that the command line names. */
#ifndef FILES_H
#define FILES_H

#include <stdbool.h>
#include <stdio.h>

/* The files that a script's cycles are written to. */
enum output { OUTPUT_VCD, OUTPUT_TEXT, OUTPUTS };

/*
 * Gives each closed standard descriptor to a file on which its use fails. Otherwise the
 * next file opened would take its number, and answers could end up in the dump.
 */
void files_hold_descriptors(void);

/* The name of an input in messages. */
const char *files_input_name(const char *input);

/* NULL after a message. */
FILE *files_open_input(const char *input);

/* Closes it, unless it is standard input. */
void files_close_input(FILE *file);

/*
 * Opens the files that are named for writing, and leaves NULL for the others. False after
 * a message, also when a file is the script, receives the answers or is named twice:
 * writing would destroy what is in it. Then no file that was there is changed; one that
 * was missing may stay, empty.
 */
bool files_open_outputs(const char *const names[OUTPUTS], FILE *script, FILE *files[OUTPUTS]);

/* Prints a message about a file and the reason, an errno value; 0 if none was left. */
void files_message(const char *name, int reason);

/*
 * Keeps errno, EIO if none was left, as the reason of a failed write. Only the first failure
 * is kept: it names the cause, later ones follow from it.
 */
void files_keep_error(int *error);

#endif
