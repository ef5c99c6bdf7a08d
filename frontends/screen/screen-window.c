/* The window over the text, and the history beside it. */
#include "screen.h"
#include <curses.h>
#include <stdio.h>
#include <string.h>

/* How a byte of the window is marked: the pointer is shown on the byte after it, reversed. */
static unsigned long attributes_of(uint8_t marks, bool is_pointer)
{
    unsigned long hit = marks & MARK_HIT && !is_in_color() ? A_BOLD | A_UNDERLINE : 0;
    return hit | (is_pointer ? A_REVERSE : 0) | (marks & MARK_CAME ? A_BOLD : 0) | (marks & MARK_GONE_BEFORE ? A_UNDERLINE : 0);
}

static short pair_of(uint8_t marks, const struct glyph *glyph)
{
    return marks & MARK_HIT ? HITS : marks & MARK_CAME ? NEW : marks & MARK_GONE_BEFORE ? OLD : glyph->is_control ? CONTROLS : PLAIN;
}

/* The end of the text, where it is in the window: a sign that no text is shown by. */
static void draw_end_of_text(const struct view *view, int row, int column, bool is_pointer)
{
    static const struct glyph BLANK_CELL = {.bytes = 1, .cells = 1, .shown = L" "};
    uint8_t marks = view->marks[view->count];
    if (is_pointer || marks & MARK_GONE_BEFORE)
        put_glyph(row, column, &BLANK_CELL, attributes_of(marks, is_pointer), pair_of(marks, &BLANK_CELL));
    else if (view->from + view->count == view->length)
        (void)mvaddch(row, column, ACS_DIAMOND | A_DIM);
}

/* The row of the text with which a window of so many rows begins, so that the pointer is in it. */
static size_t first_row(const struct view *view, size_t rows, size_t columns)
{
    if (view->pointer < view->from || view->is_free)
        return 0;
    size_t stands = row_of_pointer(view, SHOWN, columns);
    return stands < rows || stands == SHOWN ? 0 : stands - (rows - 1);
}

/* The place of the first byte that was drawn last, and that behind the last one. */
static size_t drawn_from, drawn_to;

void window_edges(size_t *from, size_t *to)
{
    *from = drawn_from;
    *to = drawn_to;
}

/* Whether lines have their numbers, and the cells that these took last. */
static bool has_numbers;
static int cells_of_numbers;

void turn_numbers(void)
{
    has_numbers = !has_numbers;
}

/* Room for the text: all rows but the title, the typed text, the string and the state, and all columns but that of the marks of wrapped rows,
   which is that of the line before a pane. */
void draw_size(struct window *window)
{
    int columns = (has_pane() ? COLS - STRIP - 1 : COLS - 1) - (has_numbers ? cells_of_numbers : 0);
    window->rows = LINES > 4 ? (size_t)LINES - 3 : 1;
    window->columns = columns > 1 ? (size_t)columns : 1;
    window->has_numbers = has_numbers;
}

/* The window while it is drawn: where it is on the screen, and which rows of the text it has. */
struct frame {
    int top, left, right;
    size_t first, end;
};

/* The number of a line, in its first row. */
static void draw_number(const struct frame *frame, size_t row, size_t line)
{
    if (frame->left == 0 || row < frame->first || row >= frame->end)
        return;
    (void)attr_set(A_DIM, 0, NULL);
    (void)mvprintw(frame->top + (int)(row - frame->first), 0, "%*zu", frame->left - 1, line);
    (void)attr_set(0, 0, NULL);
}

/* The mark of a row that goes on in the next one. */
static void draw_wrap(const struct frame *frame, size_t row)
{
    static const struct glyph MARK = {.bytes = 1, .cells = 1, .shown = L"\\"};
    if (row >= frame->first && row < frame->end)
        put_glyph(frame->top + (int)(row - frame->first), frame->right, &MARK, A_BOLD, BLOCKS);
}

static struct frame frame_of(const struct view *view, int top, int rows)
{
    struct frame frame = {.top = top, .right = has_pane() ? COLS - STRIP - 1 : COLS - 1};
    if (view->top_line > 0)
        frame.left = cells_of_numbers = snprintf(NULL, 0, "%4zu ", view->top_line + (size_t)rows);
    frame.first = first_row(view, (size_t)rows, (size_t)(frame.right - frame.left));
    frame.end = frame.first + (size_t)rows;
    return frame;
}

/* Draws a character where the walk has come to, if it is in the window and fits there. */
static void draw_character(const struct frame *frame, const struct walk *walk, const struct view *view, size_t at, const struct glyph *glyph)
{
    bool is_pointer = view->from + at == view->pointer;
    if (walk->row >= frame->first && walk->row < frame->end && walk->column + glyph->cells <= walk->columns)
        put_glyph(frame->top + (int)(walk->row - frame->first), frame->left + (int)walk->column, glyph,
            attributes_of(view->marks[at], is_pointer), pair_of(view->marks[at], glyph));
}

/* Goes to the row that has room for a glyph, and marks the one before it. */
static void go_to(const struct frame *frame, struct walk *walk, const struct glyph *glyph)
{
    size_t row = walk->row;
    walk_to(walk, glyph);
    if (walk->row > row && !glyph->is_line_end)
        draw_wrap(frame, row);
}

/* Draws the texts from `next` on that are gone before a byte of the window. */
static void draw_old(const struct frame *frame, struct walk *walk, const struct view *view, size_t at, size_t *next)
{
    for (; *next < view->old_count && view->old[*next].before <= at; (*next)++) {
        for (size_t i = 0; old_has_more(&view->old[*next], i) && walk->row < frame->end;) {
            struct glyph glyph = old_glyph(&view->old[*next], i);
            go_to(frame, walk, &glyph);
            if (walk->row >= frame->first && walk->row < frame->end && walk->column + glyph.cells <= walk->columns)
                put_glyph(frame->top + (int)(walk->row - frame->first), frame->left + (int)walk->column, &glyph, is_in_color() ? 0 : A_DIM, OLD);
            walk_behind(walk, &glyph);
            i += glyph.bytes;
        }
    }
}

void draw_window(const struct view *view, int top, int rows)
{
    struct frame frame = frame_of(view, top, rows);
    struct walk walk = {.columns = (size_t)(frame.right - frame.left)};
    size_t at = 0, old = 0, line = view->top_line, pointer = view->pointer - view->from;
    drawn_from = view->from;
    draw_number(&frame, 0, line);
    while (walk.row < frame.end && at < view->count) {
        draw_old(&frame, &walk, view, at, &old);
        struct glyph glyph = glyph_at(view->bytes, view->count, at, pointer, walk.column);
        go_to(&frame, &walk, &glyph);
        if (walk.row >= frame.end)
            break;
        draw_character(&frame, &walk, view, at, &glyph);
        drawn_from = walk.row < frame.first ? view->from + at + glyph.bytes : drawn_from;
        walk_behind(&walk, &glyph);
        line += view->bytes[at] >= LINE_FEED && view->bytes[at] < RETURN;
        at += glyph.bytes;
        if (glyph.is_line_end)
            draw_number(&frame, walk.row, line);
    }
    drawn_to = view->from + at;
    if (at == view->count)
        draw_old(&frame, &walk, view, at, &old);
    if (walk.column >= walk.columns) {
        draw_wrap(&frame, walk.row);
        walk = (struct walk){.row = walk.row + 1, .columns = walk.columns};
    }
    if (walk.row >= frame.first && walk.row < frame.end && at == view->count)
        draw_end_of_text(view, top + (int)(walk.row - frame.first), frame.left + (int)walk.column, at == pointer);
}

/* A string that was run: its number, its text, and how it ended. */
static void draw_string(const struct screen *screen, int row, size_t string, bool is_last)
{
    const struct journal *journal = &screen->work.journal;
    char number[24];
    size_t n;
    int left = COLS - STRIP;
    const uint8_t *text = journal_text(journal, string, &n);
    uint8_t code = journal->strings[string].code;
    bool is_undone = string >= journal->cursor;
    (void)snprintf(number, sizeof number, "%c%zu ", is_undone ? '-' : is_last ? '*' : ' ', string + 1);
    (void)attr_set(is_undone ? A_DIM : 0, 0, NULL);
    (void)mvaddstr(row, left, number);
    (void)put_bytes(row, left + (int)strlen(number), COLS - 5, text, n, is_undone ? A_DIM : 0, PLAIN);
    (void)attr_set(is_undone ? A_DIM : 0, has_colors() ? (code == 0 ? GOOD : ERROR) : 0, NULL);
    (void)mvprintw(row, COLS - 4, " %s", code == 0 ? "ok" : code == NOT_KNOWN ? "" : code_letters(code));
    (void)attr_set(0, 0, NULL);
}

/* The strings, done and undone; the one that is typed stands between them. */
void draw_strip(const struct screen *screen, int top, int rows)
{
    const struct journal *journal = &screen->work.journal;
    int left = COLS - STRIP;
    bool is_typing = screen->line.text.count > 0 && !screen->is_stepping && !screen->is_naming;
    size_t place = journal->cursor, shown = journal->count + is_typing;
    size_t first = place + 2 > (size_t)rows ? place + 2 - (size_t)rows : 0;
    for (size_t i = first; i < shown && i - first < (size_t)rows; i++) {
        int row = top + (int)(i - first);
        if (is_typing && i == place) {
            (void)mvaddstr(row, left, "> ");
            (void)put_bytes(row, left + 2, COLS, screen->line.text.at, screen->line.text.count, A_BOLD, PLAIN);
        } else {
            size_t string = is_typing && i > place ? i - 1 : i;
            draw_string(screen, row, string, string + 1 == place && !is_typing);
        }
    }
}
