#include "recorded.h"

#include <string.h>

#include "text.h"

/* A text has neither white space before its first digit nor a $. */
static bool is_vcd(const struct text *text)
{
    size_t at = 0;
    while (at < text->length && vcd_words_is_space(text->bytes[at])) {
        at++;
    }
    return at < text->length && text->bytes[at] == '$';
}

static bool read_text(struct recorded *recorded, struct text *text, const char *name)
{
    struct pl022_text read = text_read(text, name, "; nor is it a VCD file, which begins with $");
    if (read.refusal != PL022_DONE) {
        return false;
    }
    memcpy(recorded->cycles, text->lines, (size_t)read.cycles);
    recorded->count = (size_t)read.cycles;
    return true;
}

static bool read_vcd(struct recorded *recorded, const struct text *head, FILE *file,
                     const char *name, const struct vcd_choice *choice)
{
    struct vcd_words words = {.file = file, .head = head->bytes, .head_length = head->length};
    struct vcd_room room = {.cycles = recorded->cycles, .most = RECORDED_CYCLES};
    if (!vcd_read(&words, name, choice, &room)) {
        return false;
    }
    recorded->count = room.count;
    recorded->start = room.start;
    recorded->period = choice->period;
    return true;
}

bool recorded_read(struct recorded *recorded, FILE *file, const char *name,
                   const struct vcd_choice *choice)
{
    struct text text;
    if (!text_load(&text, file, name)) {
        return false;
    }
    recorded->is_vcd = is_vcd(&text);
    return recorded->is_vcd ? read_vcd(recorded, &text, file, name, choice)
                            : read_text(recorded, &text, name);
}
