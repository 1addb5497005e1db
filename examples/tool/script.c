#include "script.h"

#include <stdbool.h>
#include <stdlib.h>

enum { FIRST_CAPACITY = 4096 };

/* Doubles the room, up to the limit. */
static bool grow(struct script *script)
{
    size_t wanted = script->capacity == 0 ? FIRST_CAPACITY : script->capacity * 2;
    if (wanted > SCRIPT_LINE_LIMIT) {
        wanted = SCRIPT_LINE_LIMIT;
    }
    char *text = realloc(script->text, wanted);
    if (text == NULL) {
        return false;
    }
    script->text = text;
    script->capacity = wanted;
    return true;
}

/*
 * The limit is checked before a byte is stored, so that an endless line, from a
 * device file for example, ends the reading instead of filling the memory.
 */
enum script_status script_next(struct script *script)
{
    int byte;
    script->length = 0;
    script->number++;
    while ((byte = getc(script->file)) != EOF && byte != '\n') {
        if (script->length == SCRIPT_LINE_LIMIT) {
            return SCRIPT_LINE_TOO_LONG;
        }
        if (script->length == script->capacity && !grow(script)) {
            return SCRIPT_FAILED;
        }
        script->text[script->length++] = (char)byte;
    }
    if (byte == EOF && ferror(script->file)) {
        return SCRIPT_FAILED;
    }
    if (byte == EOF && script->length == 0) {
        return SCRIPT_END;
    }
    if (script->length > 0 && script->text[script->length - 1] == '\r') {
        script->length--;
    }
    return SCRIPT_LINE;
}

void script_free(struct script *script)
{
    free(script->text);
    script->text = NULL;
    script->capacity = 0;
}
