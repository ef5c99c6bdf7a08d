/* The number of a line. The line ends of a long text are counted once, for each piece of it. A place of another text then costs no more than
   what lies between it and a piece, and what differs between the two texts. */
#include "screen.h"
#include <stdlib.h>

enum { PIECE = 1 << 16 };

/* So many line ends are before each piece of a text of so many bytes. */
static size_t *before, count, counted;

/* The line ends between two places. */
static size_t between(const struct teco *t, size_t from, size_t to)
{
    size_t lines = 0;
    (void)teco_lines(t, from, to, &lines);
    return lines;
}

void lines_forget(void)
{
    free(before);
    before = NULL;
    count = 0;
}

bool lines_are_counted(void)
{
    return count > 0;
}

void lines_count(const struct teco *t)
{
    lines_forget();
    if (teco_length(t, &counted) != 0)
        return;
    before = calloc(counted / PIECE + 1, sizeof *before);
    if (before == NULL)
        return;
    count = counted / PIECE + 1;
    for (size_t i = 1; i < count; i++)
        before[i] = before[i - 1] + between(t, (i - 1) * PIECE, i * PIECE);
}

/* The line ends between two places of the text that was counted, whose bytes stand `shift` further on now. */
static size_t counted_between(const struct teco *t, size_t from, size_t to, size_t shift)
{
    size_t first = (from + PIECE - 1) / PIECE, last = to / PIECE;
    if (first > last)
        return between(t, from + shift, to + shift);
    return between(t, from + shift, first * PIECE + shift) + before[last] - before[first] + between(t, last * PIECE + shift, to + shift);
}

size_t lines_before(const struct teco *t, size_t place, size_t length, struct same same)
{
    if (count == 0)
        return between(t, 0, place);
    if (place <= same.front)
        return counted_between(t, 0, place, 0);
    size_t back = length - same.back, shift = length - counted;
    size_t lines = counted_between(t, 0, same.front, 0) + between(t, same.front, place < back ? place : back);
    return place < back ? lines : lines + counted_between(t, back - shift, place - shift, shift);
}
