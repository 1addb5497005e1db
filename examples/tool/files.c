#include "files.h"

#include <errno.h>
#include <fcntl.h>
#include <string.h>
#include <sys/stat.h>
#include <unistd.h>

void files_hold_descriptors(void)
{
    static const int useless[] = {O_WRONLY, O_RDONLY, O_RDONLY};
    for (int descriptor = 0; descriptor < 3; descriptor++) {
        if (fcntl(descriptor, F_GETFD) == -1 && errno == EBADF) {
            /* The lowest free number is this one: those below are taken by now. */
            (void)open("/dev/null", useless[descriptor]);
        }
    }
}

void files_message(const char *name, int reason)
{
    fprintf(stderr, "pl022: %s: %s\n", name, strerror(reason != 0 ? reason : EIO));
}

void files_keep_error(int *error)
{
    if (*error == 0) {
        *error = errno != 0 ? errno : EIO;
    }
}

const char *files_input_name(const char *input)
{
    return input == NULL ? "stdin" : input;
}

FILE *files_open_input(const char *input)
{
    if (input == NULL) {
        return stdin;
    }
    FILE *file = fopen(input, "r");
    if (file == NULL) {
        files_message(input, errno);
    }
    return file;
}

void files_close_input(FILE *file)
{
    if (file != stdin) {
        fclose(file);
    }
}

/* Only regular files: a terminal or /dev/null may well be named twice. */
static bool is_same_file(int one, int other)
{
    struct stat first;
    struct stat second;
    return fstat(one, &first) == 0 && fstat(other, &second) == 0 && S_ISREG(first.st_mode)
        && first.st_dev == second.st_dev && first.st_ino == second.st_ino;
}

/* NULL after a message. Not emptied yet: it may turn out to be in use. */
static FILE *open_output(const char *name)
{
    int descriptor = open(name, O_WRONLY | O_CREAT, 0666);
    FILE *file = descriptor == -1 ? NULL : fdopen(descriptor, "w");
    if (file == NULL) {
        files_message(name, errno);
        if (descriptor != -1) {
            close(descriptor);
        }
    }
    return file;
}

static bool is_unused(const char *name, FILE *file, const int *used, size_t count)
{
    for (size_t n = 0; n < count; n++) {
        if (is_same_file(fileno(file), used[n])) {
            fprintf(stderr, "pl022: %s: this file is the script, receives the answers or is "
                            "named twice\n", name);
            return false;
        }
    }
    return true;
}

static bool empty(const char *name, FILE *file)
{
    struct stat status;
    if (fstat(fileno(file), &status) != 0
        || (S_ISREG(status.st_mode) && ftruncate(fileno(file), 0) != 0)) {
        files_message(name, errno);
        return false;
    }
    return true;
}

static bool open_unused(const char *const names[OUTPUTS], FILE *script, FILE *files[OUTPUTS])
{
    int used[2 + OUTPUTS] = {fileno(script), STDOUT_FILENO};
    size_t count = 2;
    for (unsigned n = 0; n < OUTPUTS; n++) {
        if (names[n] == NULL) {
            continue;
        }
        files[n] = open_output(names[n]);
        if (files[n] == NULL || !is_unused(names[n], files[n], used, count)) {
            return false;
        }
        used[count++] = fileno(files[n]);
    }
    return true;
}

bool files_open_outputs(const char *const names[OUTPUTS], FILE *script, FILE *files[OUTPUTS])
{
    for (unsigned n = 0; n < OUTPUTS; n++) {
        files[n] = NULL;
    }
    bool opened = open_unused(names, script, files);
    /* Emptied only here, after all checks, not by open. */
    for (unsigned n = 0; opened && n < OUTPUTS; n++) {
        opened = files[n] == NULL || empty(names[n], files[n]);
    }
    for (unsigned n = 0; !opened && n < OUTPUTS; n++) {
        if (files[n] != NULL) {
            fclose(files[n]);
        }
    }
    return opened;
}
