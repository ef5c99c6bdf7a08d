/* The pane beside the text: the history, in whose place the registers stand among the steps; the registers, what was printed, or nothing. */
#include "screen.h"
#include <curses.h>
#include <stdio.h>
#include <string.h>

enum { LEAST_COLUMNS_FOR_PANE = 64, KEPT = 1 << 14 };

static enum pane { HISTORY, REGISTERS_SET, PRINTED, NOTHING, PANES } pane;

/* The last bytes that the strings have printed, and room for those of a preview behind them. */
static uint8_t printed[KEPT + TAIL];
static size_t kept;

bool has_pane(void)
{
    return pane != NOTHING && COLS >= LEAST_COLUMNS_FOR_PANE;
}

void turn_pane(void)
{
    pane = (pane + 1) % PANES;
}

void note_printed(const uint8_t *bytes, size_t n)
{
    size_t taken = n < KEPT ? n : KEPT;
    size_t stays = kept < KEPT - taken ? kept : KEPT - taken;
    memmove(printed, printed + kept - stays, stays);
    memcpy(printed + stays, bytes + n - taken, taken);
    kept = stays + taken;
}

/* The registers that have a number or a text, as many as there are rows. */
static void draw_registers(const struct view *view, int top, int rows)
{
    int row = 0, left = COLS - STRIP;
    for (size_t i = 0; i < REGISTERS && row < rows; i++) {
        const struct shown_register *shown = &view->registers[i];
        char number[32];
        if (shown->number == 0 && shown->length == 0)
            continue;
        int n = snprintf(number, sizeof number, " %c %d", REGISTER_NAMES[i], (int)shown->number);
        (void)mvaddstr(top + row, left, number);
        size_t length = shown->length < SHOWN_OF_REGISTER ? shown->length : SHOWN_OF_REGISTER;
        (void)put_bytes(top + row++, left + n + 1, COLS, shown->text, length, 0, TEXTS);
    }
    if (row == 0)
        (void)mvaddstr(top, left, " no register is set");
}

/* Goes over what was printed, and draws its rows from `first` on. How many rows there are. */
static size_t walk_printed(size_t n, size_t first, int top)
{
    struct walk walk = {.columns = STRIP - 1};
    for (size_t at = 0; at < n;) {
        struct glyph glyph = glyph_at(printed, n, at, SIZE_MAX, walk.column);
        bool is_line_end = glyph.is_line_end || (printed[at] == RETURN && at + 1 < n && printed[at + 1] == LINE_FEED);
        if (!is_line_end) {
            walk_to(&walk, &glyph);
            if (walk.row >= first)
                put_glyph(top + (int)(walk.row - first), COLS - STRIP + 1 + (int)walk.column, &glyph, 0, PLAIN);
        }
        if (!is_line_end || glyph.is_line_end)
            walk_behind(&walk, &glyph);
        at += glyph.bytes;
    }
    return walk.row + (walk.column > 0);
}

/* The last rows of what the strings have printed, and of what the one would print that is typed. */
static void draw_printed(const struct screen *screen, int top, int rows)
{
    const struct view *view = screen_view(screen);
    size_t more = screen->is_previewed && !screen->is_stepping ? view->tail : 0;
    memcpy(printed + kept, view->typed, more);
    size_t count = walk_printed(kept + more, SIZE_MAX, top);
    if (count == 0)
        (void)mvaddstr(top, COLS - STRIP, " nothing was printed");
    (void)walk_printed(kept + more, count > (size_t)rows ? count - (size_t)rows : 0, top);
}

void draw_pane(const struct screen *screen, int top, int rows)
{
    for (int row = 0; row < rows; row++)
        (void)mvaddch(top + row, COLS - STRIP - 1, ACS_VLINE);
    switch (pane == HISTORY && screen->is_stepping ? REGISTERS_SET : pane) {
    case REGISTERS_SET: draw_registers(screen_view(screen), top, rows); break;
    case PRINTED: draw_printed(screen, top, rows); break;
    default: draw_strip(screen, top, rows);
    }
}
