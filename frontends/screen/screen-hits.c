/* What the search finds whose text is being typed. The library finds it, in a session of its own that has the bytes of the window and no
   more: there each hit is taken out, and the changes tell where it was. */
#include "screen.h"
#include <string.h>

/* The most bytes of a window that are searched, and the most steps that it may take. A cell has at most so many bytes of them. */
enum { SEARCHED = 1 << 15, STEPS = 1 << 17, BYTES_OF_CELL = 4 };

const uint8_t *search_text(token_reader *reader, const uint8_t *text, size_t n, size_t at, size_t *size)
{
    struct teco_token token;
    *size = 0;
    if (reader(text, n, at, &token) != 0 || token.to != n || token.kind != TECO_TOKEN_TEXT)
        return text;
    for (at = token.from; text[at] == ':' || text[at] == '@'; at++)
        continue;
    if (strchr("SsNn_", text[at]) != NULL)
        *size = token.size;
    return text + token.to - 1 - *size;
}

/* A byte that is in neither text, and may end both; ESC where there is none. */
static uint8_t delimiter_of(const uint8_t *one, size_t n, const uint8_t *other, size_t m)
{
    bool is_there[256] = {[LINE_FEED] = true, [RETURN] = true, [ESCAPE] = true, [' '] = true};
    for (size_t i = 0; i < n; i++)
        is_there[one[i]] = true;
    for (size_t i = 0; i < m; i++)
        is_there[other[i]] = true;
    for (unsigned byte = 1; byte < 256; byte++) {
        if (!is_there[byte])
            return (uint8_t)byte;
    }
    return ESCAPE;
}

/* The string that puts so many bytes of the window in, and takes each hit out. False where no byte is left that could end its texts, or
   memory is refused. */
static bool write_string(struct bytes *to, const struct view *view, size_t searched, const uint8_t *text, size_t n, bool is_either_case)
{
    uint8_t delimiter = delimiter_of(view->bytes, searched, text, n);
    uint8_t put_in[] = {'@', 'I', delimiter}, take_out[] = {delimiter, 'J', '<', '@', 'F', 'S', delimiter}, ends[] = {delimiter, delimiter, ';', '>'};
    to->count = 0;
    return delimiter != ESCAPE && bytes_add(to, "0\30", is_either_case ? 2 : 0) && bytes_add(to, put_in, sizeof put_in) &&
        bytes_add(to, view->bytes, searched) && bytes_add(to, take_out, sizeof take_out) && bytes_add(to, text, n) &&
        bytes_add(to, ends, sizeof ends);
}

/* Marks the hits that the only string of a session took out, which stood further on by what was taken out before. */
static void mark_taken(const struct teco *t, struct view *view)
{
    struct teco_splice splice;
    size_t changes, taken = 0;
    (void)teco_changes(t, 0, &changes);
    for (size_t k = 0; k < changes; k++) {
        if (teco_splice(t, 0, k, &splice) != 0 || splice.gone > 0)
            continue;
        for (size_t at = splice.at + taken; at < splice.at + taken + splice.came && at < view->count; at++)
            view->marks[at] |= MARK_HIT;
        taken += splice.came;
    }
}

void mark_hits(struct view *view, const struct window *window, const uint8_t *text, size_t n, bool is_either_case)
{
    static struct bytes string;
    struct teco session = {0};
    struct teco_run run = {.limit = STEPS, .room = TECO_NO_ROOM, .frames = TECO_NO_FRAMES};
    size_t searched = BYTES_OF_CELL * window->rows * window->columns;
    searched = searched < SEARCHED ? searched : SEARCHED;
    searched = searched < view->count ? searched : view->count;
    if (!write_string(&string, view, searched, text, n, is_either_case) || teco_open(&session, text, 0, 0, 1) != 0)
        return;
    (void)teco_run(&session, string.at, string.count, &run);
    mark_taken(&session, view);
    teco_close(&session);
}
