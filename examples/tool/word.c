#include "word.h"

#include <string.h>

struct quoted word_quote(const char *text, size_t length)
{
    enum { SHOWN = 24 };
    struct quoted quoted;
    size_t n = 0;
    for (; n < length && n < SHOWN; n++) {
        quoted.text[n] = text[n] > ' ' && text[n] < 127 ? text[n] : '?';
    }
    strcpy(quoted.text + n, length > SHOWN ? "..." : "");
    return quoted;
}

/* Plain comparisons: what counts as a digit must not depend on the locale. */
unsigned word_digit(char byte)
{
    if (byte >= '0' && byte <= '9') {
        return (unsigned)(byte - '0');
    }
    if (byte >= 'a' && byte <= 'f') {
        return (unsigned)(byte - 'a') + 10U;
    }
    if (byte >= 'A' && byte <= 'F') {
        return (unsigned)(byte - 'A') + 10U;
    }
    return NOT_A_DIGIT;
}

bool word_number(const char *text, size_t length, unsigned base, uint64_t most, uint64_t *number)
{
    uint64_t sum = 0;
    for (size_t n = 0; n < length; n++) {
        unsigned digit = word_digit(text[n]);
        if (digit >= base || digit > most || sum > (most - digit) / base) {
            return false;
        }
        sum = sum * base + digit;
    }
    *number = sum;
    return length > 0;
}
