/* The string that is being typed, and how it is drawn: rows and columns are counted from the prompt on, and what changed is drawn anew. */
#include "term-editor.h"
#include <stdio.h>
#include <string.h>
#include <wchar.h>
#include <wctype.h>

enum { TAB_STOP = 8, LEAST_ROWS = 2, LEAST_COLUMNS = 16 };

/* Where the next cell comes, and the bytes that draw the cells from a row on and before another one. */
struct pen {
    struct bytes *to;
    size_t first, end, row, column, columns;
    bool failed;
};

static void draw(struct pen *pen, const char *bytes, size_t n)
{
    if (pen->row >= pen->first && pen->row < pen->end && !bytes_add(pen->to, bytes, n))
        pen->failed = true;
}

static void draw_text(struct pen *pen, const char *text)
{
    draw(pen, text, strlen(text));
}

/* A row that is full: a blank goes to the next one on every terminal, whether it waits with that or not. */
static void end_row(struct pen *pen, const char *bytes)
{
    if (pen->row + 1 < pen->end)
        draw_text(pen, bytes);
    pen->row++;
    pen->column = 0;
}

/* Bytes that take so many cells, which stay in one row. */
static void draw_cells(struct pen *pen, const char *bytes, size_t n, size_t cells)
{
    if (pen->column + cells > pen->columns)
        end_row(pen, "  \r");
    draw(pen, bytes, n);
    pen->column += cells;
    if (pen->column == pen->columns)
        end_row(pen, " \r");
}

static void draw_plain(struct pen *pen, const char *text)
{
    for (; *text != '\0'; text++)
        draw_cells(pen, text, 1, 1);
}

static void draw_tab(struct pen *pen)
{
    do
        draw_plain(pen, " ");
    while (pen->column % TAB_STOP != 0);
}

/* A character of several bytes as it is, and a byte that belongs to none by its number. How many bytes it was. */
static size_t draw_wide(struct pen *pen, const uint8_t *text, size_t n)
{
    wchar_t wide;
    mbstate_t state = {0};
    char number[8];
    size_t taken = mbrtowc(&wide, (const char *)text, n, &state);
    int cells = taken > 0 && taken <= n ? wcwidth(wide) : -1;
    bool combines = cells == 0 && iswprint((wint_t)wide) && pen->column > 0;
    if (cells > 0 || combines) {
        draw_cells(pen, (const char *)text, taken, (size_t)cells);
        return taken;
    }
    (void)snprintf(number, sizeof number, "\\x%02X", text[0]);
    draw_plain(pen, number);
    return 1;
}

/* The first of these bytes, or more of them that are one character. How many it was. */
static size_t draw_first(struct pen *pen, const uint8_t *text, size_t n)
{
    uint8_t byte = text[0];
    if (byte >= 128)
        return draw_wide(pen, text, n);
    if (byte == LINE_FEED)
        end_row(pen, "\r\n");
    else if (byte == TAB)
        draw_tab(pen);
    else if (byte == ESCAPE)
        draw_plain(pen, "$");
    else if (byte < 32 || byte == DELETE)
        draw_plain(pen, (char[]){'^', (char)(byte ^ 64), '\0'});
    else
        draw_plain(pen, (char[]){(char)byte, '\0'});
    return 1;
}

static void draw_bytes(struct pen *pen, const uint8_t *text, size_t from, size_t to)
{
    while (from < to)
        from += draw_first(pen, text + from, to - from);
}

/* Where the last character begins of which a part may have gone or come: so far the screen can stay. */
static size_t unchanged(const struct line *line)
{
    const uint8_t *text = line->text.at;
    size_t at = line->kept, back = 1;
    while (back <= 3 && back <= at && (text[at - back] & 0xC0) == 0x80)
        back++;
    if (back > at || text[at - back] < 0xC0)
        return at;
    uint8_t lead = text[at - back];
    size_t length = lead < 0xE0 ? 2 : lead < 0xF0 ? 3 : 4;
    return length > back ? at - back : at;
}

/* Where the cell before a place begins, whose marks may have changed: it is drawn anew with them. */
static size_t whole_cell(const struct line *line, size_t drawn, size_t at)
{
    const uint8_t *text = line->text.at;
    return at == 0 || at == drawn || text[at - 1] == LINE_FEED ? at : cell_before(text, at);
}

/* The size of the terminal, as far as it can be drawn in. */
static void measure(size_t *rows, size_t *columns)
{
    tty_size(rows, columns);
    *rows = *rows < LEAST_ROWS ? LEAST_ROWS : *rows;
    *columns = *columns < LEAST_COLUMNS ? LEAST_COLUMNS : *columns;
}

/* From the prompt to so many bytes. */
static void draw_from_prompt(struct pen *pen, const struct line *line, const struct drawing *drawing, size_t to)
{
    draw_plain(pen, drawing->prompt != NULL ? drawing->prompt : "*");
    draw_bytes(pen, line->text.at, 0, to);
}

/* Where so many bytes end: a pen that draws nothing. */
static struct pen pen_at(const struct line *line, const struct drawing *drawing, size_t to)
{
    struct pen pen = {.first = SIZE_MAX, .columns = drawing->columns};
    draw_from_prompt(&pen, line, drawing, to);
    return pen;
}

static void draw_move(struct pen *pen, char letter, size_t cells)
{
    char text[32];
    if (cells == 0)
        return;
    (void)snprintf(text, sizeof text, "\33[%zu%c", cells, letter);
    draw_text(pen, text);
}

/* Goes to a place of the rows that are on the screen. */
static void go_to(struct pen *pen, size_t row, size_t column)
{
    if (row < pen->row)
        draw_move(pen, 'A', pen->row - row);
    for (size_t at = pen->row; at < row; at++)
        draw_text(pen, "\n");
    draw_text(pen, "\r");
    draw_move(pen, 'C', column);
    pen->row = row;
    pen->column = column;
}

static void clear_below(struct pen *pen)
{
    draw_text(pen, "\33[J");
}

/* Draws the rows from `top` on for which there is room, in the place of those that are there. */
static void draw_rows(struct pen *pen, const struct line *line, struct drawing *drawing, size_t top)
{
    go_to(pen, drawing->top, 0);
    clear_below(pen);
    drawing->top = top;
    *pen = (struct pen){.to = pen->to, .first = top, .end = top + drawing->rows, .columns = pen->columns, .failed = pen->failed};
    draw_from_prompt(pen, line, drawing, line->text.count);
    drawing->is_cut = pen->row >= pen->end;
    if (drawing->is_cut) {
        pen->row = pen->end - 1;
        pen->column = SIZE_MAX;
    }
    pen->end = SIZE_MAX;
    pen->first = 0;
}

/* Draws the text anew, where nothing of it is on the screen that could stay. */
static void begin(struct pen *pen, const struct line *line, struct drawing *drawing)
{
    bool is_elsewhere = drawing->lost || drawing->columns != 0;
    measure(&drawing->rows, &drawing->columns);
    drawing->top = 0;
    drawing->is_cut = false;
    *pen = (struct pen){.to = pen->to, .end = SIZE_MAX, .columns = drawing->columns};
    if (is_elsewhere)
        draw_text(pen, "\r\n\33[J");
    draw_from_prompt(pen, line, drawing, line->text.count);
}

/* Draws what changed, and what is behind it. Where its first row has left the screen, as many rows before it as there is room for. */
static void draw_changes(struct pen *pen, const struct line *line, struct drawing *drawing)
{
    size_t from = whole_cell(line, drawing->drawn, unchanged(line));
    bool is_behind = from == drawing->drawn && drawing->cursor == from;
    struct pen begins = is_behind ? *pen : pen_at(line, drawing, from);
    if (begins.row < drawing->top) {
        draw_rows(pen, line, drawing, begins.row < drawing->rows ? 0 : begins.row - (drawing->rows - 1));
        return;
    }
    if (!is_behind)
        go_to(pen, begins.row, begins.column);
    if (from < drawing->drawn)
        clear_below(pen);
    draw_bytes(pen, line->text.at, from, line->text.count);
}

/* Goes from the end of the text to the line's cursor. Where that isn't on the screen, its row is brought there. */
static void show_cursor(struct pen *pen, const struct line *line, struct drawing *drawing, bool is_at_end)
{
    struct pen at = is_at_end && line->cursor == line->text.count ? *pen : pen_at(line, drawing, line->cursor);
    size_t last = drawing->top + drawing->rows - 1;
    if (at.row < drawing->top || drawing->is_cut)
        draw_rows(pen, line, drawing, at.row < drawing->top ? at.row : at.row > last ? drawing->top + (at.row - last) : drawing->top);
    if (at.row != pen->row || at.column != pen->column)
        go_to(pen, at.row, at.column);
}

static bool is_elsewhere(const struct drawing *drawing)
{
    size_t rows, columns;
    measure(&rows, &columns);
    return drawing->lost || rows != drawing->rows || columns != drawing->columns;
}

enum fate line_show(struct line *line, struct drawing *drawing)
{
    struct bytes bytes = {0};
    struct pen pen = {.to = &bytes, .end = SIZE_MAX, .row = drawing->row, .column = drawing->column, .columns = drawing->columns};
    bool is_other = line->kept < drawing->drawn || line->text.count != drawing->drawn;
    bool is_new = is_elsewhere(drawing);
    if (is_new)
        begin(&pen, line, drawing);
    else if (is_other && !drawing->is_cut)
        draw_changes(&pen, line, drawing);
    if (pen.row >= drawing->top + drawing->rows)
        drawing->top = pen.row - (drawing->rows - 1);
    if (is_new || is_other || line->cursor != drawing->cursor)
        show_cursor(&pen, line, drawing, (is_new || is_other) && !drawing->is_cut);
    drawing->row = pen.row;
    drawing->column = pen.column;
    drawing->drawn = line->kept = line->text.count;
    drawing->cursor = line->cursor;
    drawing->lost = false;
    bool shown = !pen.failed && tty_show(bytes.at, bytes.count);
    bytes_free(&bytes);
    return shown ? GOES_ON : pen.failed ? NO_MEMORY : SHOW_FAULT;
}

enum fate line_show_text(const struct bytes *text)
{
    struct bytes bytes = {0};
    struct pen pen = {.to = &bytes, .end = SIZE_MAX};
    size_t rows;
    measure(&rows, &pen.columns);
    draw_bytes(&pen, text->at, 0, text->count);
    bool shown = !pen.failed && tty_show(bytes.at, bytes.count) && (pen.column == 0 || tty_say("\r\n"));
    bytes_free(&bytes);
    return shown ? GOES_ON : pen.failed ? NO_MEMORY : SHOW_FAULT;
}
