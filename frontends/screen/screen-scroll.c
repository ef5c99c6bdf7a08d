/* Where a window begins that goes over the text, while the pointer stays. It goes by rows of the screen, so that it stops inside of a long
   line too. */
#include "screen.h"
#include <string.h>

/* The bytes that are looked at. */
static uint8_t piece[SHOWN];
static size_t count;

static void read_piece(const struct teco *t, size_t at, size_t most)
{
    size_t left;
    count = teco_text(t, at, piece, most, &left) != 0 ? 0 : left < most ? left : most;
}

/* Goes over the rows of the piece, to the one of this number or to the end. Where that row begins, or the last one; and how many there
   were. */
static size_t row_start(size_t row, size_t columns, size_t *rows)
{
    struct walk walk = {.columns = columns};
    size_t start = 0, last = 0;
    for (size_t at = 0; at < count && last < row;) {
        struct glyph glyph = glyph_at(piece, count, at, SIZE_MAX, walk.column);
        walk_to(&walk, &glyph);
        if (walk.row > last) {
            last = walk.row;
            start = at;
        }
        walk_behind(&walk, &glyph);
        at += glyph.bytes;
    }
    *rows = walk.row + (walk.column > 0);
    return start;
}

/* The place where the last line before a place begins, as far as the piece has room for it. */
static size_t line_before(const struct teco *t, size_t place)
{
    size_t begin = place > SHOWN ? place - SHOWN : 0;
    read_piece(t, begin, place - begin);
    size_t at = count > 0 ? count - 1 : 0;
    while (at > 0 && piece[at - 1] != LINE_FEED)
        at--;
    return begin + at;
}

static size_t scrolled_up(const struct teco *t, size_t top, size_t rows, size_t columns)
{
    while (rows > 0 && top > 0) {
        size_t begin = line_before(t, top), lies;
        read_piece(t, begin, top - begin);
        (void)row_start(SIZE_MAX, columns, &lies);
        if (lies == 0)
            return begin;
        if (rows < lies)
            return begin + row_start(lies - rows, columns, &lies);
        rows -= lies;
        top = begin;
    }
    return top;
}

size_t scrolled(const struct teco *t, size_t top, int rows, size_t columns)
{
    size_t lies;
    if (rows < 0)
        return scrolled_up(t, top, (size_t)-rows, columns);
    read_piece(t, top, SHOWN);
    return top + row_start((size_t)rows, columns, &lies);
}
