/*
 * teco-term - TECO for a person at a terminal
 *
 *   teco-term [-f FILE].. [-i | -o FILE] [--page-lines N] [--limit N] [--undo N] [--wide] [--steps] INPUT..
 *
 * Keys make command strings, which are run at ESC ESC by the library of teco.h; docs/TERMINAL.md tells of the keys. What a string types is
 * shown when it has ended. Nothing here changes a text but through teco_run, teco_undo, teco_redo and teco_rewind.
 */
#include "term-editor.h"
#include <locale.h>

/* A terminal that knows it marks what is pasted. */
static const struct marks MARKS = {.begin = "\33[?2004h", .end = "\33[?2004l"};

static const struct program PROGRAM = {
    .name = "teco-term",
    .has_steps = true,
    .usage = "usage: teco-term [-f FILE].. [-i | -o FILE] [--page-lines N] [--limit N] [--undo N] [--wide] [--steps] INPUT..\n",
    /* The completions of the shells are made of these lines, by tools/completions. */
    .help = "TECO for a person at a terminal: a command string is run at ESC ESC, and can be undone\n"
            "\n"
            "Usage: teco-term [OPTIONS] <INPUT>...\n"
            "\n"
            "Arguments:\n"
            "  <INPUT>...  The files to edit, one after another; each stays as it is, unless it is the output too\n"
            "\n"
            "Options:\n"
            "  -f, --file <FILE>     The first commands are those of the source that FILE has; may be repeated\n"
            "  -o, --output <FILE>   Where the output goes after an exit; INPUT.out without it\n"
            "  -i, --in-place        The output goes over each INPUT\n"
            "      --page-lines <N>  The most lines of a page, at most 1000000000; without it form feeds end pages\n"
            "      --limit <N>       The most steps that each command string may take, at most 1000000000000; 1000000 without it\n"
            "      --undo <N>        The most command strings kept to be undone, at most 100000; all without it\n"
            "      --wide            Reads the commands in the wider language of old macros\n"
            "      --steps           Shows after each string how many steps it took\n"
            "  -h, --help            Print help\n"
            "  -V, --version         Print version\n"
            "\n"
            "EX writes the output and ends the program, and Ctrl-D leaves with nothing written.\n"};

/* Where EX writes. */
static enum fate say_output(const struct work *work)
{
    return shown(tty_say(work->is_new ? "a new file: EX writes " : "EX writes ") && tty_say(work->output) && tty_say("\r\n"));
}

/* Sets the terminal, and gives it back when the editing is over. */
static enum fate edit_at_terminal(struct editor *editor)
{
    enum fate fate = tty_begin(&MARKS);
    if (fate == GOES_ON)
        fate = left_ask(&editor->work);
    if (fate == GOES_ON)
        fate = say_output(&editor->work);
    if (fate == GOES_ON && !editor->work.is_gone_on)
        fate = serve_sources(editor);
    if (fate == GOES_ON)
        fate = converse(editor);
    tty_end();
    bytes_free(&editor->line.text);
    bytes_free(&editor->last);
    return fate;
}

static enum fate edit(const struct options *options)
{
    struct editor editor = {0};
    enum fate fate = work_open(&editor.work, options);
    if (fate == GOES_ON)
        fate = edit_at_terminal(&editor);
    work_tell(&editor.work);
    work_close(&editor.work, fate);
    return fate;
}

int main(int count, char **words)
{
    struct options options;
    int status = options_read(&PROGRAM, count, words, &options);
    if (status >= 0)
        return status;
    (void)setlocale(LC_CTYPE, "");
    return edit_all(&PROGRAM, &options, edit);
}
