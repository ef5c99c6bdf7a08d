/*
 * teco-screen - TECO on a full screen, where a command string shows what it does while it is typed
 *
 *   teco-screen [-f FILE].. [-i | -o FILE] [--page-lines N] [--limit N] [--undo N] [--wide] INPUT..
 *
 * docs/TERMINAL.md tells of the rule and the keys. A string is tried in a copy of the process; nothing here changes the text of the session
 * but through teco_run, teco_undo, teco_redo and teco_rewind.
 */
#include "screen.h"
#include <locale.h>
#include <stdio.h>
#include <string.h>

static const struct program PROGRAM = {
    .name = "teco-screen",
    .usage = "usage: teco-screen [-f FILE].. [-i | -o FILE] [--page-lines N] [--limit N] [--undo N] [--wide] INPUT..\n",
    /* The completions of the shells are made of these lines, by tools/completions. */
    .help = "TECO on a full screen: a command string shows what it does while it is typed\n"
            "\n"
            "Usage: teco-screen [OPTIONS] <INPUT>...\n"
            "\n"
            "Arguments:\n"
            "  <INPUT>...  The files to edit, one after another; each stays as it is, unless it is the output too\n"
            "\n"
            "Options:\n"
            "  -f, --file <FILE>     The first commands are those of the source that FILE has; may be repeated\n"
            "  -o, --output <FILE>   Where the output goes after an exit; INPUT.out without it\n"
            "  -i, --in-place        The output goes over each INPUT\n"
            "      --page-lines <N>  The most lines of a page, at most 1000000000; without it form feeds end pages\n"
            "      --limit <N>       The most steps that each command string may take, at most 1000000000000; 1000000 without it\n"
            "      --undo <N>        The most command strings kept to be undone, at most 100000; all without it\n"
            "      --wide            Reads the commands in the wider language of old macros\n"
            "  -h, --help            Print help\n"
            "  -V, --version         Print version\n"
            "\n"
            "ESC ESC keeps a string, EX writes the output and ends the program, and Ctrl-D leaves with nothing written.\n"};

/* Whether no string of the sources has read a page, or put anything into the buffer. */
static bool is_unread(const struct screen *screen)
{
    size_t place = 0, length = 0;
    const struct teco *t = &screen->work.session;
    bool is_waiting = screen->is_naming || screen->has_warned;
    return !is_waiting && screen->work.size > 0 && teco_place(t, &place) == 0 && place == 0 && teco_length(t, &length) == 0 && length == 0;
}

/* The strings of the sources come first. Where they have read no page, the first one is read by a string, which can be undone; but all this
   not where a session that was left is gone on with. */
static enum fate begin(struct screen *screen)
{
    if (screen->work.is_gone_on) {
        (void)work_steps(&screen->work, &screen->still.told.steps);
        return GOES_ON;
    }
    enum fate fate = screen_sources(screen);
    if (fate == GOES_ON && is_unread(screen))
        screen->still.told = work_do(&screen->work, (const uint8_t *)"Y", 1);
    return fate;
}

static enum fate edit_on_screen(struct screen *screen)
{
    enum fate fate = left_ask(&screen->work);
    if (fate != GOES_ON)
        return fate;
    if (!draw_begin())
        return POOR_TERMINAL;
    draw_anew();
    screen->still.told.at = TECO_NOWHERE;
    fate = begin(screen);
    if (fate != GOES_ON)
        return fate;
    if (screen->work.is_new && screen->message[0] == '\0')
        (void)snprintf(screen->message, sizeof screen->message, "a new file  (F1 for help)");
    screen_look(screen);
    return screen_converse(screen);
}

/* Sets the terminal, and gives it back when the editing is over. */
static enum fate edit_at_terminal(struct screen *screen)
{
    struct marks marks = {.begin = "", .end = ""};
    bool is_known = draw_marks(&marks);
    enum fate fate = tty_begin(&marks);
    if (fate == GOES_ON)
        fate = is_known ? edit_on_screen(screen) : POOR_TERMINAL;
    tty_end();
    return fate;
}

static enum fate edit(const struct options *options)
{
    static struct screen screen;
    memset(&screen, 0, sizeof screen);
    enum fate fate = work_open(&screen.work, options);
    if (fate == GOES_ON) {
        fate = preview_open(&screen.preview, &screen.work) ? edit_at_terminal(&screen) : NO_MEMORY;
        preview_close(&screen.preview);
    }
    work_tell(&screen.work);
    work_close(&screen.work, fate);
    bytes_free(&screen.line.text);
    bytes_free(&screen.pending);
    lines_forget();
    pages_forget();
    return fate;
}

int main(int count, char **words)
{
    struct options options;
    int status = options_read(&PROGRAM, count, words, &options);
    if (status >= 0)
        return status;
    (void)setlocale(LC_CTYPE, "");
    return edit_all(&PROGRAM, &options, edit);
}
