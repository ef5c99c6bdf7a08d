/* Looking at a session: what of its text lies in the window, and what else is shown of it. */
#include "screen.h"
#include <string.h>

size_t row_of_pointer(const struct view *view, size_t rows, size_t columns)
{
    struct walk walk = {.columns = columns};
    if (view->pointer < view->from)
        return rows;
    size_t at = 0, old = 0, pointer = view->pointer - view->from;
    while (walk.row < rows && at < view->count && at < pointer) {
        walk_over_old(&walk, view, at, &old);
        struct glyph glyph = glyph_at(view->bytes, view->count, at, pointer, walk.column);
        walk_to(&walk, &glyph);
        walk_behind(&walk, &glyph);
        at += glyph.bytes;
    }
    walk_over_old(&walk, view, at, &old);
    return at < pointer ? rows : walk.row + (walk.column >= columns);
}

static void read_window(const struct teco *t, struct view *view, size_t from)
{
    size_t left;
    view->from = from;
    view->count = 0;
    if (teco_text(t, from, view->bytes, SHOWN, &left) == 0)
        view->count = left < SHOWN ? left : SHOWN;
}

/* Where a window may begin in whose middle a place is: a line's beginning, where one is near enough. */
static size_t middle(const struct teco *t, struct view *view, const struct window *window, size_t place)
{
    size_t reach = window->rows * window->columns / 2;
    reach = reach < SHOWN ? reach : SHOWN;
    size_t from = place > reach ? place - reach : 0;
    size_t left, lines = 0, at;
    if (teco_text(t, from, view->bytes, reach, &left) != 0)
        return from;
    for (at = place - from; at > 0 && lines <= window->rows / 2; at--)
        lines += view->bytes[at - 1] == LINE_FEED;
    return lines > window->rows / 2 ? from + at + 1 : from + at;
}

static bool is_line_start(const struct teco *t, size_t at, size_t length)
{
    uint8_t before = 0;
    size_t left;
    return at == 0 || (at <= length && teco_text(t, at - 1, &before, 1, &left) == 0 && before == LINE_FEED);
}

/* The window stays where it was, if a line begins there and the pointer is in it. A search that fails puts the pointer at 0: while it is
   typed the window doesn't follow it there. */
static void find_window(const struct teco *t, struct view *view, const struct window *window)
{
    bool stands = is_line_start(t, window->top, view->length);
    view->is_free = window->is_free;
    if (window->is_scrolled) {
        size_t top = window->top < view->length ? window->top : view->length;
        read_window(t, view, scrolled(t, top, window->scroll, window->columns));
        return;
    }
    bool stays = view->subject == OF_STRING && view->told.code == CODE_SRH && stands && window->top < view->length;
    if (stands)
        read_window(t, view, window->top);
    if (window->is_free && stands)
        return;
    if (!stands || (!stays && row_of_pointer(view, window->rows, window->columns) >= window->rows))
        read_window(t, view, middle(t, view, window, view->pointer));
}

/* Goes to the change that the window is asked for, if there is one. */
static void seek_change(const struct teco *t, struct view *view, const struct window *window)
{
    size_t edge = window->edge < view->length ? window->edge : view->length;
    size_t found = change_beyond(t, view->length, edge, window->seeks);
    view->is_missed = found == TECO_NOWHERE;
    if (!view->is_missed)
        read_window(t, view, middle(t, view, window, found));
}

const char REGISTER_NAMES[REGISTERS + 1] = "ABCDEFGHIJKLMNOPQRSTUVWXYZ0123456789";

static void look_at_registers(const struct teco *t, struct view *view)
{
    for (size_t i = 0; i < REGISTERS; i++) {
        struct shown_register *shown = &view->registers[i];
        (void)teco_number(t, (uint8_t)REGISTER_NAMES[i], &shown->number);
        (void)teco_register(t, (uint8_t)REGISTER_NAMES[i], shown->text, sizeof shown->text, &shown->length);
    }
}

void look(const struct teco *t, struct view *view, const struct window *window)
{
    (void)teco_length(t, &view->length);
    (void)teco_pointer(t, &view->pointer);
    (void)teco_place(t, &view->place);
    (void)teco_output(t, 0, view->typed, 0, &view->output);
    view->is_done = teco_done(t) == 1;
    view->old_count = 0;
    look_at_registers(t, view);
    find_window(t, view, window);
    view->is_missed = false;
    if (window->seeks != STAYS)
        seek_change(t, view, window);
    struct same same = mark_changes(t, view);
    if (view->subject == OF_SESSION || view->subject == OF_STRING)
        view->same = same;
    view->line = 1 + lines_before(t, view->pointer, view->length, view->same);
    view->top_line = window->has_numbers ? 1 + lines_before(t, view->from, view->length, view->same) : 0;
}

void keep_same(const struct teco *t, struct view *view)
{
    view->count = 0;
    (void)teco_length(t, &view->length);
    struct same same = mark_changes(t, view);
    view->same.front = same.front < view->same.front ? same.front : view->same.front;
    view->same.back = same.back < view->same.back ? same.back : view->same.back;
}
