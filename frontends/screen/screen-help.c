/* The keys, and what the command does that is being typed: its row of docs/REFERENCE.md, which frontends/screen/reference has made a table.
   Where nothing is typed, all commands. */
#include "screen.h"
#include <curses.h>
#include <stdio.h>
#include <string.h>

static const struct {
    const char *letters, *spelling, *does;
} ROWS[] = {
#include "reference.h"
};

#include "screen-commands.h"

/* Where the names begin in a row of the list, and what they do. */
enum { TASK = 10, DOES = 30 };
enum { COMMANDS_LISTED = sizeof COMMANDS_BY_TASK / sizeof *COMMANDS_BY_TASK, KEYS_LISTED = sizeof KEYS / sizeof *KEYS };

/* Whether more is to be shown than there was room for. */
static bool has_more;

bool help_has_more(void)
{
    return has_more;
}

static uint8_t capital(uint8_t byte)
{
    return byte >= 'a' && byte <= 'z' ? (uint8_t)(byte - 32) : byte;
}

/* The letters by which the table names the command at a place: two after a caret, E, F, and of PW and ==, and : before them. */
static void letters_at(const uint8_t *text, size_t n, size_t at, char *letters)
{
    bool has_colon = false;
    size_t count = 0;
    for (; at + 1 < n && (text[at] == ':' || text[at] == '@'); at++)
        has_colon |= text[at] == ':';
    uint8_t first = capital(text[at]), second = at + 1 < n ? capital(text[at + 1]) : 0;
    if (has_colon)
        letters[count++] = ':';
    if (first == ESCAPE) {
        letters[count++] = '$';
    } else if (first >= '0' && first <= '9') {
        letters[count++] = '0';
    } else if (first < 32) {
        letters[count++] = '^';
        letters[count++] = (char)(first ^ 64);
    } else {
        bool has_two = first == '^' || first == 'E' || first == 'F' || (first == 'P' && second == 'W') || (first == '=' && second == '=');
        letters[count++] = (char)first;
        if (has_two && second > 32 && second < 127)
            letters[count++] = (char)second;
    }
    letters[count] = '\0';
}

/* How many rows of the screen those of the table take that have these letters; draws them from a row on, where that isn't 0. */
static int draw_rows(const char *letters, int top)
{
    char row[400];
    int taken = 0;
    for (size_t i = 0; i < sizeof ROWS / sizeof *ROWS; i++) {
        if (strcmp(ROWS[i].letters, letters) != 0)
            continue;
        (void)snprintf(row, sizeof row, "%s  %s", ROWS[i].spelling, ROWS[i].does);
        (void)attr_set(A_BOLD, 0, NULL);
        if (top > 0)
            (void)mvaddstr(top + taken, 0, row);
        (void)attr_set(0, 0, NULL);
        taken += 1 + (int)((strlen(row) - 1) / (size_t)COLS);
    }
    return taken;
}

/* The token that a string ends with, or the one that comes next of the steps. */
static size_t token_of_help(const struct screen *screen, const uint8_t *text, size_t n)
{
    const struct view *view = screen_view(screen);
    if (screen->is_stepping && view->told.at < n)
        return view->told.at;
    token_reader *reader = work_reader(&screen->work);
    size_t last = n;
    for (size_t at = 0; at < n;) {
        struct token token = token_at(reader, text, n, at);
        if (token.kind != BLANK || text[at] == ESCAPE)
            last = at;
        at = token.to;
    }
    return last;
}

static void draw_listed(const struct listed *listed, int row)
{
    (void)attr_set(A_BOLD, 0, NULL);
    (void)mvaddnstr(row, 0, listed->task, COLS);
    (void)mvaddnstr(row, TASK, listed->name, COLS - TASK);
    (void)attr_set(0, 0, NULL);
    int behind = TASK + (int)strlen(listed->name) + 2, column = behind > DOES ? behind : DOES;
    if (column < COLS)
        (void)mvaddnstr(row, column, listed->does, COLS - column);
}

/* Some of the list, from a place on: the commands, and behind them the keys. */
static void draw_list(size_t first, int top, int rows)
{
    size_t all = COMMANDS_LISTED + KEYS_LISTED;
    for (size_t i = first; i < all && i - first < (size_t)rows; i++)
        draw_listed(i < COMMANDS_LISTED ? &COMMANDS_BY_TASK[i] : &KEYS[i - COMMANDS_LISTED], top + (int)(i - first));
    has_more = first + (size_t)rows < all;
}

void draw_help(const struct screen *screen, int top, int rows)
{
    char letters[4];
    size_t n;
    const uint8_t *text = screen_line(screen, &n);
    size_t at = token_of_help(screen, text, n), first = n > 0 ? COMMANDS_LISTED : 0;
    bool is_first = screen->help_page == 0;
    int taken = 0;
    if (at < n) {
        letters_at(text, n, at, letters);
        taken = draw_rows(letters, is_first ? top : 0);
        if (taken == 0 && letters[0] == ':')
            taken = draw_rows(letters + 1, is_first ? top : 0);
    }
    taken = taken < rows ? taken : rows;
    if (is_first)
        draw_list(first, top + taken, rows - taken);
    else
        draw_list(first + screen->help_page * (size_t)rows - (size_t)taken, top, rows);
}
