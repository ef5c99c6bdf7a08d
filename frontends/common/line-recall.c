/* What was typed before comes back into the line, as text: strings that were run, undone since or not, and those that were dropped. */
#include "terminal.h"
#include <string.h>

/* Whether the text is the string of the past that is so many back. */
static bool is_of_past(const struct bytes *text, size_t back)
{
    size_t n = 0;
    const uint8_t *other = back > 0 && back <= past_count() ? past_at(past_count() - back, &n) : NULL;
    return n > 0 && n == text->count && memcmp(other, text->at, n) == 0;
}

/* A text that is none of the past becomes its latest string, before another one takes its place. False where memory is refused. */
static bool keep_typed(struct line *line)
{
    const struct bytes *text = &line->text;
    if (is_of_past(text, line->recalled))
        return true;
    line->recalled = text->count > 0;
    return past_add(text->at, text->count);
}

enum edit line_recall(struct line *line, bool is_older)
{
    size_t n = 0;
    if ((is_older ? past_count() : line->recalled) == 0 || !keep_typed(line))
        return LINE_REFUSED;
    size_t back = line->recalled;
    if (back == (is_older ? past_count() : 0))
        return LINE_REFUSED;
    back = is_older ? back + 1 : back - 1;
    const uint8_t *text = back > 0 ? past_at(past_count() - back, &n) : NULL;
    line->cursor = line->text.count = 0;
    if (!line_insert(line, text, n))
        return LINE_NO_MEMORY;
    line->kept = line->escape = 0;
    line->recalled = back;
    return LINE_EDITED;
}
