/* Drawing by ncurses, which sends what differs from the screen that is there. It reads no key, and sets the terminal no more than it has
   to: term-read.c and term-tty.c do that. */
#include "screen.h"
#include <curses.h>
#include <stdio.h>
#include <stdlib.h>
#include <string.h>
#include <unistd.h>

/* Of <term.h>, which makes macros of such names as `columns`. */
struct term;
extern int setupterm(const char *name, int file, int *answer);
extern char *tigetstr(const char *name);
extern struct term *set_curterm(struct term *terminal);
extern int del_curterm(struct term *terminal);

enum { MOST_LINE = 4, MOST_TYPED = 4, CAPABILITIES = 4096 };

static void add_text(char *to, const char *text, size_t n)
{
    size_t at = strlen(to);
    if (n < CAPABILITIES - at)
        (void)snprintf(to + at, CAPABILITIES - at, "%.*s", (int)n, text);
}

/* Adds what the terminal's description has of this name, without the waits in it. What is too long is left out whole. */
static void add_capability(char *to, const char *name)
{
    char text[CAPABILITIES / 4];
    size_t n = 0;
    const char *from = tigetstr(name);
    if (from == NULL || from == (const char *)-1)
        return;
    while (*from != '\0' && n < sizeof text) {
        if (from[0] == '$' && from[1] == '<' && strchr(from, '>') != NULL)
            from = strchr(from, '>') + 1;
        else
            text[n++] = *from++;
    }
    if (n < sizeof text)
        add_text(to, text, n);
}

/* What the terminal is shown by a handler, which can't call ncurses: another screen, and that it marks pastes and tells of the wheel. False
   where the terminal isn't known, or can't move its cursor. */
bool draw_marks(struct marks *marks)
{
    static const char MODES_SET[] = "\33[?2004h\33[?1000h\33[?1006h", MODES_RESET[] = "\33[?1006l\33[?1000l\33[?2004l";
    static char begin[CAPABILITIES], end[CAPABILITIES];
    static bool is_known;
    int answer;
    *marks = (struct marks){.begin = begin, .end = end, .is_full = true};
    if (is_known)
        return true;
    if (setupterm(NULL, STDOUT_FILENO, &answer) != OK || tigetstr("cup") == NULL)
        return false;
    add_capability(begin, "smcup");
    add_text(begin, MODES_SET, strlen(MODES_SET));
    add_text(end, MODES_RESET, strlen(MODES_RESET));
    add_capability(end, "sgr0");
    add_capability(end, "cnorm");
    add_capability(end, tigetstr("rmcup") != NULL ? "rmcup" : "clear");
    is_known = true;
    (void)del_curterm(set_curterm(NULL));
    return true;
}

/* Colors that can be read on a light ground and on a dark one: of the first eight these are red and magenta alone. */
static void begin_colors(void)
{
    enum { GREEN = 28, TEAL = 30, BROWN = 130, RED = 160, PURPLE = 163, BLACK = 16, GOLD = 220 };
    static const short OF_MANY[PAIRS] = {[CONTROLS] = TEAL, [NEW] = GREEN, [OLD] = RED, [ERROR] = RED, [GOOD] = GREEN, [NUMBERS] = TEAL,
        [COMMANDS] = BROWN, [TEXTS] = GREEN, [BLOCKS] = PURPLE, [HITS] = BLACK};
    static const short OF_FEW[PAIRS] = {[CONTROLS] = COLOR_MAGENTA, [NEW] = COLOR_MAGENTA, [OLD] = COLOR_RED, [ERROR] = COLOR_RED,
        [GOOD] = -1, [NUMBERS] = -1, [COMMANDS] = -1, [TEXTS] = COLOR_MAGENTA, [BLOCKS] = -1, [HITS] = COLOR_BLACK};
    bool has_many = COLORS == 256; /* where there are more, a number is the color itself */
    for (short i = 1; i < PAIRS; i++)
        (void)init_pair(i, (has_many ? OF_MANY : OF_FEW)[i], i != HITS ? -1 : has_many ? GOLD : COLOR_YELLOW);
}

static bool draws_colors;

bool is_in_color(void)
{
    return draws_colors;
}

bool draw_begin(void)
{
    static bool is_begun;
    const char *plain = getenv("NO_COLOR");
    if (is_begun)
        return true;
    if (newterm(NULL, stdout, stdin) == NULL)
        return false;
    is_begun = true;
    draws_colors = (plain == NULL || *plain == '\0') && has_colors() && start_color() == OK && use_default_colors() == OK;
    if (draws_colors)
        begin_colors();
    return true;
}

/* In the size that the terminal has now, with nothing of what is there. */
void draw_anew(void)
{
    size_t rows, columns;
    tty_size(&rows, &columns);
    (void)resizeterm((int)rows, (int)columns);
    (void)clearok(curscr, TRUE);
}

void put_glyph(int row, int column, const struct glyph *glyph, unsigned long attributes, short pair)
{
    (void)attr_set((attr_t)attributes, has_colors() ? pair : 0, NULL);
    (void)mvaddwstr(row, column, glyph->shown);
    (void)attr_set(0, 0, NULL);
}

int put_bytes(int row, int column, int end, const uint8_t *bytes, size_t n, unsigned long attributes, short pair)
{
    for (size_t at = 0; at < n;) {
        struct glyph glyph = glyph_at(bytes, n, at, SIZE_MAX, (size_t)column);
        if (glyph.is_line_end)
            glyph.shown[0] = L'\x21b5';
        if (bytes[at] == TAB) {
            glyph.cells = 1;
            glyph.shown[1] = 0;
        }
        if (column + (int)glyph.cells > end)
            break;
        put_glyph(row, column, &glyph, attributes, pair);
        column += (int)glyph.cells;
        at += glyph.bytes;
    }
    return column;
}

static void draw_title(const struct screen *screen)
{
    char text[400];
    const struct view *view = screen_view(screen);
    (void)attr_set(A_REVERSE, 0, NULL);
    (void)mvhline(0, 0, ' ', COLS);
    (void)snprintf(text, sizeof text, " %s%s > %s  page %zu  read %zu of %zu, written %zu%s", screen->work.options->input,
        screen->work.journal.is_wanted ? " *" : "", screen->work.output, page_at(&screen->work, view->place), view->place,
        screen->work.size, view->output,
        screen->is_stepping ? "  STEPS" : screen->is_previewed ? "  PREVIEW" : "");
    (void)mvaddnstr(0, 0, text, COLS);
    (void)attr_set(0, 0, NULL);
}

/* The pane and the text; a mark of the text is drawn over the line between them. */
static void draw_beside(const struct screen *screen, int top, int rows)
{
    if (has_pane())
        draw_pane(screen, top, rows);
    draw_window(screen_view(screen), top, rows);
}

static void draw_parts(const struct screen *screen)
{
    int line = line_rows(screen), typed = typed_rows(screen_view(screen));
    line = line > MOST_LINE ? MOST_LINE : line;
    int left = LINES - 2 - line;
    typed = typed > MOST_TYPED ? MOST_TYPED : typed;
    typed = typed > left / 2 ? left / 2 : typed;
    int window = left - typed;
    draw_title(screen);
    if (screen->is_helped)
        draw_help(screen, 1, window);
    else
        draw_beside(screen, 1, window);
    draw_typed(screen_view(screen), 1 + window, typed);
    draw_state(screen, LINES - 1);
    draw_line(screen, LINES - 1 - line, line);
}

void draw(const struct screen *screen)
{
    (void)erase();
    if (LINES < LEAST_ROWS || COLS < LEAST_COLUMNS)
        (void)mvaddnstr(0, 0, "20 by 6 are wanted", COLS);
    else
        draw_parts(screen);
    (void)refresh();
}
