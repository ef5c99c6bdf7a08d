/* The rows below the text: what a string typed, the string itself, and the state. */
#include "screen.h"
#include <curses.h>
#include <stdio.h>
#include <string.h>

static const char NAME[] = "Another name, and Return: ";

/* Where the string begins in its first row: behind the star, or behind what asks for a name. */
static size_t prompt_cells(const struct screen *screen)
{
    return screen->is_naming ? sizeof NAME - 1 : 1;
}

/* Of a long string no more is looked at than so many bytes on either side of the cursor. */
enum { FAR = 1 << 16 };

/* The first byte that is drawn: that of the string, or of a character far before the cursor. */
static size_t first_drawn(const uint8_t *text, size_t cursor)
{
    size_t at = cursor > FAR ? cursor - FAR : 0;
    while (at > 0 && at < cursor && (text[at] & 0xC0) == 0x80)
        at++;
    return at;
}

/* The place of the cursor among what is typed. Where the steps of a string are gone through it is at its end. */
static size_t cursor_of(const struct screen *screen)
{
    size_t n;
    (void)screen_line(screen, &n);
    return screen->is_stepping ? n : screen->line.cursor;
}

/* The cell of a byte of the string, or the one behind its last. */
static struct walk cell_of(const struct screen *screen, size_t place)
{
    size_t n;
    const uint8_t *text = screen_line(screen, &n);
    size_t cursor = cursor_of(screen), at = first_drawn(text, cursor);
    struct walk walk = {.columns = (size_t)COLS};
    walk.column = prompt_cells(screen) % walk.columns;
    while (at < n && at < place && at < cursor + FAR) {
        struct glyph glyph = glyph_at(text, n, at, cursor, walk.column);
        walk_to(&walk, &glyph);
        walk_behind(&walk, &glyph);
        at += glyph.bytes;
    }
    if (walk.column >= walk.columns)
        walk = (struct walk){.row = walk.row + 1, .columns = walk.columns};
    return walk;
}

int line_rows(const struct screen *screen)
{
    size_t row = cell_of(screen, SIZE_MAX).row;
    return row < 1000 ? (int)row + 1 : 1000;
}

/* Whether the failing token, or the one that comes next of the steps, begins at a place: then it is reversed. */
static bool is_here(const struct screen *screen, size_t at)
{
    const struct view *view = screen_view(screen);
    if (at != view->told.at)
        return false;
    if (screen->is_stepping)
        return view->subject == OF_STEP;
    bool is_open = view->told.code == CODE_UTC && view->told.calls == 0;
    return view->subject == OF_STRING && view->n >= line_string(&screen->line) && view->told.code != 0 && !is_open;
}

static unsigned long attributes_of(const struct token *token, const struct glyph *glyph, bool is_marked)
{
    static const unsigned long OF[] = {[COMMAND] = A_BOLD, [TEXT_COMMAND] = 0, [BLOCK] = A_BOLD, [CUT] = A_UNDERLINE, [BAD] = A_UNDERLINE};
    unsigned long own = token->kind < sizeof OF / sizeof *OF ? OF[token->kind] : 0;
    return own | (glyph->is_control ? A_BOLD : 0) | (is_marked ? A_REVERSE : 0);
}

/* The first row of the string that is shown, of so many: its end can be seen, or else the cursor. */
static size_t first_row(const struct screen *screen, size_t rows)
{
    size_t end = cell_of(screen, SIZE_MAX).row + 1, cursor = cell_of(screen, cursor_of(screen)).row;
    size_t first = end > rows ? end - rows : 0;
    return first < cursor ? first : cursor;
}

/* The string with its tokens told apart, which are those of its beginning: of a long one they aren't looked for. */
void draw_line(const struct screen *screen, int top, int rows)
{
    static const short PAIR_OF[] = {NUMBERS, NUMBERS, COMMANDS, TEXTS, BLOCKS, PLAIN, TEXTS, ERROR};
    size_t n, first = first_row(screen, (size_t)rows), marked = 0;
    const uint8_t *text = screen_line(screen, &n);
    size_t cursor = cursor_of(screen), at = first_drawn(text, cursor);
    struct walk walk = {.columns = (size_t)COLS, .column = prompt_cells(screen) % (size_t)COLS};
    struct token token = {.kind = BLANK, .to = at > 0 ? n : 0};
    if (first == 0)
        (void)mvaddnstr(top, 0, screen->is_naming ? NAME : "*", COLS);
    while (at < n && walk.row < first + (size_t)rows) {
        if (at >= token.to && !screen->is_naming)
            token = token_at(work_reader(&screen->work), text, n, at);
        if (is_here(screen, at) && !screen->is_naming)
            marked = token.to;
        struct glyph glyph = glyph_at(text, n, at, cursor, walk.column);
        walk_to(&walk, &glyph);
        if (walk.row >= first && walk.row < first + (size_t)rows && !glyph.is_line_end)
            put_glyph(top + (int)(walk.row - first), (int)walk.column, &glyph, attributes_of(&token, &glyph, at < marked),
                at < marked ? ERROR : PAIR_OF[token.kind]);
        walk_behind(&walk, &glyph);
        at += glyph.bytes;
    }
    walk = cell_of(screen, cursor);
    (void)move(top + (int)(walk.row - first), (int)walk.column);
}

int typed_rows(const struct view *view)
{
    int rows = 0;
    size_t end = view->tail;
    if (end > 0 && view->typed[end - 1] == LINE_FEED)
        end--;
    for (size_t at = 0; at < end; at++)
        rows += view->typed[at] == LINE_FEED;
    return view->tail == 0 ? 0 : rows + 1;
}

/* The last rows of what the string typed. Before the first of them stands < where more is above. */
void draw_typed(const struct view *view, int top, int rows)
{
    size_t end = view->tail;
    for (int row = rows - 1; row >= 0; row--) {
        if (end > 0 && view->typed[end - 1] == LINE_FEED)
            end--;
        size_t begin = end;
        while (begin > 0 && view->typed[begin - 1] != LINE_FEED)
            begin--;
        size_t stop = end > begin && view->typed[end - 1] == RETURN ? end - 1 : end;
        (void)mvaddstr(top + row, 0, row == 0 && (begin > 0 || view->tail < view->told.made) ? "<" : ":");
        (void)put_bytes(top + row, 2, COLS, view->typed + begin, stop - begin, 0, PLAIN);
        end = begin;
    }
}

/* How much a string changes the text: how often, where that is not once, and how many bytes it takes out and puts in. */
static void describe_changes(const struct view *view, char *text, size_t size)
{
    char often[40] = "", gone[32] = "", came[32] = "";
    if (view->subject != OF_STRING || view->changes == 0 || size == 0)
        return;
    if (view->changes > 1)
        (void)snprintf(often, sizeof often, "%zu changes, ", view->changes);
    if (view->gone > 0)
        (void)snprintf(gone, sizeof gone, "-%zu%s", view->gone, view->came > 0 ? " " : "");
    if (view->came > 0)
        (void)snprintf(came, sizeof came, "+%zu", view->came);
    (void)snprintf(text, size, ": %s%s%s byte%s", often, gone, came, view->gone + view->came == 1 ? "" : "s");
}

/* How the string ended. */
static void describe_end(const struct view *view, bool is_preview, char *text, size_t size)
{
    const struct told *told = &view->told;
    bool is_open = told->code == CODE_UTC && is_preview && told->calls == 0;
    unsigned long long steps = told->steps;
    if (view->is_broken_off)
        (void)snprintf(text, size, "?LIM shown after %llu steps: broken off", steps);
    else if (is_open)
        (void)snprintf(text, size, "open");
    else if (view->is_done)
        (void)snprintf(text, size, "exits, and would write %zu bytes", view->output);
    else if (told->code == 0)
        (void)snprintf(text, size, "ok%s", view->is_search_alone ? ": the search alone" : view->closed > 0 ? ", as if the text were closed" : "");
    else if (view->goes_on)
        (void)snprintf(text, size, "?LIM shown after %llu steps, running on ..", steps);
    else if (told->code == TECO_MEM && is_preview)
        (void)snprintf(text, size, "?MEM shown after %llu steps: the memory of a preview is used up", steps);
    else
        (void)snprintf(text, size, "?%s: %s", code_letters(told->code), told_sentence(told));
    char macros[48];
    size_t used = strlen(text);
    if (told->code == 0 && !view->is_done)
        describe_changes(view, text + used, size - used);
    used = strlen(text);
    told_macros(told, macros, sizeof macros);
    if (told->calls > 0 && used < size)
        (void)snprintf(text + used, size - used, ", inside %s", macros);
}

static void describe(const struct screen *screen, char *text, size_t size)
{
    const struct view *view = screen_view(screen);
    size_t n;
    (void)screen_line(screen, &n);
    if (screen->message[0] != '\0')
        (void)snprintf(text, size, "%s", screen->message);
    else if (screen->is_helped)
        (void)snprintf(text, size, help_has_more() ? "F1 goes on, ESC leaves the help" : "F1 or ESC leaves the help");
    else if (screen->is_stepping)
        (void)snprintf(text, size, "after step %llu of %llu  (Left Right Home End; Enter stays here)", (unsigned long long)screen->step,
            (unsigned long long)screen->steps);
    else if (!screen->is_previewed && view->told.code == 0)
        (void)snprintf(text, size, "ready  (F1 for help)");
    else
        describe_end(view, screen->is_previewed, text, size);
}

/* The state: on the left how the string ended, on the right its steps and where the pointer is; in the title's place, where they don't fit
   into one row. */
void draw_state(const struct screen *screen, int row)
{
    const struct view *view = screen_view(screen);
    char left[400], right[200];
    describe(screen, left, sizeof left);
    (void)snprintf(right, sizeof right, "%s%llu step%s  .=%zu Z=%zu line %zu", screen->preview.is_busy ? ".. " : "",
        (unsigned long long)view->told.steps, view->told.steps == 1 ? "" : "s", view->pointer, view->length, view->line);
    bool is_open = view->told.code == CODE_UTC && screen->is_previewed;
    (void)attr_set(0, has_colors() ? (view->told.code != 0 && !is_open ? ERROR : GOOD) : 0, NULL);
    (void)mvaddnstr(row, 0, left, COLS);
    (void)attr_set(0, 0, NULL);
    int begins = COLS - 1 - (int)strlen(right); /* not every terminal can show its last cell */
    if (begins > (int)strlen(left)) {
        (void)mvaddstr(row, begins, right);
        return;
    }
    (void)attr_set(A_REVERSE, 0, NULL);
    (void)mvhline(0, 0, ' ', COLS);
    (void)mvaddnstr(0, 0, right, COLS);
    (void)attr_set(0, 0, NULL);
}
