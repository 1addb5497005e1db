#include "vcd_words.h"

#include <string.h>

static int next_byte(struct vcd_words *words)
{
    int byte = words->head_at < words->head_length ? words->head[words->head_at++]
                                                   : getc(words->file);
    words->line_feeds += byte == '\n';
    return byte;
}

/* Plain comparisons: what counts as white space must not depend on the locale. */
bool vcd_words_is_space(int byte)
{
    return byte == ' ' || (byte >= '\t' && byte <= '\r');
}

bool vcd_words_next(struct vcd_words *words)
{
    int byte;
    do {
        byte = next_byte(words);
    } while (vcd_words_is_space(byte));
    words->line = words->line_feeds + 1;
    words->length = 0;
    while (byte != EOF && !vcd_words_is_space(byte)) {
        if (words->length < VCD_WORD_LIMIT - 1) {
            words->text[words->length] = (char)byte;
        }
        words->length++;
        byte = next_byte(words);
    }
    words->text[words->length < VCD_WORD_LIMIT - 1 ? words->length : VCD_WORD_LIMIT - 1] = '\0';
    return words->length > 0;
}

bool vcd_words_are(const struct vcd_words *words, const char *text)
{
    return words->length == strlen(text) && memcmp(words->text, text, words->length) == 0;
}
