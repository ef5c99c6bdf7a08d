/* Keys that stand for strings: one that runs what is typed, or the last string once more; and those that take a number which is typed before
   them, for undos, redos and lines that are indented. */
#include "screen.h"
#include <stdio.h>
#include <string.h>

/* The most digits of a number that a key takes. */
enum { DIGITS = 9 };

static bool put(struct screen *screen, const char *text)
{
    return line_insert(&screen->line, (const uint8_t *)text, strlen(text));
}

/* Whether what is typed is a number. */
static bool is_number(const struct line *line)
{
    size_t at = 0;
    while (at < line->text.count && line->text.at[at] >= '0' && line->text.at[at] <= '9')
        at++;
    return at == line->text.count && at > 0 && at <= DIGITS;
}

/* Runs what is typed, as a pair of ESC at its end would. */
static enum fate run_typed(struct screen *screen)
{
    screen->line.cursor = screen->line.text.count;
    return put(screen, "\33\33") ? screen_run(screen) : NO_MEMORY;
}

/* Types the last string that isn't undone. False where memory is refused. */
static bool type_last(struct screen *screen)
{
    size_t n;
    const struct journal *journal = &screen->work.journal;
    const uint8_t *text = journal_text(journal, journal->cursor - 1, &n);
    return line_insert(&screen->line, text, n);
}

/* Types the string that indents so many lines by a TAB, or takes one away at their beginnings. A line that isn't there gets none. */
static bool type_indent(struct screen *screen, bool is_further)
{
    char number[DIGITS + 1] = "1", text[64];
    struct line *line = &screen->line;
    if (line->text.count > 0)
        (void)snprintf(number, sizeof number, "%.*s", (int)line->text.count, (const char *)line->text.at);
    line_clear(line);
    (void)snprintf(text, sizeof text, is_further ? "0L%s<.-Z\"L\t\33L'>" : "0L%s<0A-9\"ED'L>", number);
    return put(screen, text);
}

bool is_short(const struct screen *screen, enum sequence key)
{
    bool has_number = is_number(&screen->line), is_empty = screen->line.text.count == 0;
    switch (key) {
    case RUN: return !is_empty || screen->work.journal.cursor > 0;
    case INDENT: case OUTDENT: return has_number || is_empty;
    case UP: case DOWN: return has_number;
    default: return false;
    }
}

enum fate screen_run_short(struct screen *screen, enum sequence key)
{
    bool is_typed = true;
    if (screen->is_stepping)
        screen_end_steps(screen, false);
    switch (key) {
    case RUN: is_typed = screen->line.text.count > 0 || type_last(screen); break;
    case INDENT: case OUTDENT: is_typed = type_indent(screen, key == INDENT); break;
    default: screen->line.cursor = screen->line.text.count; is_typed = put(screen, key == UP ? "{" : "}");
    }
    return is_typed ? run_typed(screen) : NO_MEMORY;
}
