/* The number of a page: the ends of the pages of INPUT are counted as far as they are needed, for each piece of it. */
#include "screen.h"
#include <stdlib.h>

enum { PIECE = 1 << 16, FORM_FEED = 12 };

/* So many pages end before a place, and so many line ends are between the last of them and the place. */
struct ends {
    size_t pages, lines;
    bool is_last; /* the byte before the place ends a page */
};

/* Those before each piece, of which so many are counted. */
static struct ends *before;
static size_t counted;

void pages_forget(void)
{
    free(before);
    before = NULL;
    counted = 0;
}

/* Goes over a byte of INPUT: a form feed ends a page, and so does the last of its lines, where it has a number of them. */
static void count_byte(struct ends *ends, uint8_t byte, size_t lines)
{
    ends->lines += byte >= LINE_FEED && byte <= FORM_FEED;
    ends->is_last = byte == FORM_FEED || (lines > 0 && ends->lines == lines);
    ends->pages += ends->is_last;
    if (ends->is_last)
        ends->lines = 0;
}

/* Goes on over so many bytes of INPUT from a place on, at most a piece. */
static struct ends count_on(const struct work *work, struct ends ends, size_t from, size_t n)
{
    static uint8_t bytes[PIECE];
    size_t left;
    if (teco_input(&work->session, from, bytes, n, &left) != 0 || left < n)
        return ends;
    for (size_t i = 0; i < n; i++)
        count_byte(&ends, bytes[i], (size_t)work->lines);
    return ends;
}

size_t page_at(const struct work *work, size_t place)
{
    if (place == 0)
        return 0;
    size_t piece = (place - 1) / PIECE;
    if (before == NULL)
        before = calloc(work->size / PIECE + 1, sizeof *before);
    if (before == NULL)
        return 0;
    for (; counted < piece; counted++)
        before[counted + 1] = count_on(work, before[counted], counted * PIECE, PIECE);
    struct ends here = count_on(work, before[piece], piece * PIECE, place - piece * PIECE);
    return here.pages + !here.is_last;
}
