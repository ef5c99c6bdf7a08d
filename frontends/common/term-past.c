/* The strings that were typed in this session, as they were typed: those too that are undone, and those that can't be redone any more
   because another one was typed in their place. From here they come back as text. */
#include "terminal.h"
#include <stdlib.h>
#include <string.h>

/* All texts, one behind the other, and where each of them ends. */
static struct bytes texts;
static size_t *ends, count, room;

static bool find_room(void)
{
    if (count < room)
        return true;
    size_t *more = realloc(ends, (2 * room + 64) * sizeof *more);
    if (more == NULL)
        return false;
    ends = more;
    room += room + 64;
    return true;
}

size_t past_count(void)
{
    return count;
}

const uint8_t *past_at(size_t k, size_t *length)
{
    size_t from = k > 0 ? ends[k - 1] : 0;
    *length = ends[k] - from;
    return texts.at + from;
}

static bool is_last(const uint8_t *bytes, size_t length)
{
    size_t n;
    const uint8_t *last = count > 0 ? past_at(count - 1, &n) : NULL;
    return last != NULL && n == length && memcmp(last, bytes, n) == 0;
}

bool past_add(const uint8_t *bytes, size_t length)
{
    if (length == 0 || is_last(bytes, length))
        return true;
    if (!find_room() || !bytes_add(&texts, bytes, length))
        return false;
    ends[count++] = texts.count;
    return true;
}

void past_free(void)
{
    bytes_free(&texts);
    free(ends);
    ends = NULL;
    count = room = 0;
}
