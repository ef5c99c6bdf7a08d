/* What is shown of a string that was run, or that asked for undos, redos or a rewind. */
#include "term-editor.h"
#include <stdio.h>
#include <string.h>

static enum fate say_steps(uint64_t steps)
{
    char text[40];
    (void)snprintf(text, sizeof text, "[%llu step%s]\r\n", (unsigned long long)steps, steps == 1 ? "" : "s");
    return shown(tty_say(text));
}

/* The steps of the last string that isn't undone. */
static enum fate say_last_steps(struct editor *editor)
{
    uint64_t steps;
    return work_steps(&editor->work, &steps) ? say_steps(steps) : shown(tty_say("[no string]\r\n"));
}

static enum fate say_macros(const struct told *told)
{
    char text[48];
    told_macros(told, text, sizeof text);
    return shown(tty_say("[inside ") && tty_say(text) && tty_say("]\r\n"));
}

static bool is_one_of(const struct bytes *text, size_t at, const char *bytes)
{
    return at < text->count && text->at[at] != 0 && strchr(bytes, text->at[at]) != NULL;
}

/* The place behind the letters of the command at a place: its modifiers, one letter, and a second one after E, F and a caret. Where no
   place is told, the end of the string. */
static size_t behind_letters(const struct bytes *text, size_t at)
{
    while (is_one_of(text, at, ":@"))
        at++;
    size_t letters = is_one_of(text, at, "EFef^") ? 2 : 1;
    return at < text->count && letters < text->count - at ? at + letters : text->count;
}

/* Shows the string that failed, up to and with the letters of the command where it stopped. */
enum fate show_failed(const struct editor *editor)
{
    struct bytes front = editor->last;
    front.count = behind_letters(&editor->last, editor->told.at);
    if (!tty_say("?\r\n"))
        return SHOW_FAULT;
    enum fate fate = line_show_text(&front);
    return fate == GOES_ON && editor->told.calls > 0 ? say_macros(&editor->told) : fate;
}

static enum fate say_code(struct editor *editor)
{
    const struct told *told = &editor->told;
    editor->has_failed = true;
    return shown(tty_say("?") && tty_say(code_letters(told->code)) && tty_say(": ") && tty_say(told_sentence(told)) && tty_say("\r\n"));
}

/* What was typed begins on a line of its own, and ends with one. */
static enum fate say_typed(const struct editor *editor)
{
    size_t made = editor->told.made;
    const uint8_t *room = editor->work.room;
    return shown(tty_show(room, made) && (made == 0 || room[made - 1] == LINE_FEED || tty_say("\r\n")));
}

/* Tells why nothing is written, and asks for another name where the reason is the name. */
static enum fate tell_why(struct editor *editor, enum fate fate, const char *why)
{
    if (fate == EXIT || fate == NO_MEMORY)
        return fate;
    editor->is_naming = fate == GOES_ON;
    editor->has_warned = fate == CHANGED_FILE;
    editor->drawing.prompt = editor->is_naming ? "Another name, and Return: " : NULL;
    return shown(tty_say(why) && tty_say("\r\n"));
}

static enum fate write_output(struct editor *editor)
{
    char why[WHY];
    enum fate fate = work_write(&editor->work, why, sizeof why);
    return tell_why(editor, fate, why);
}

enum fate name_output(struct editor *editor, const uint8_t *name, size_t n)
{
    char why[WHY] = "";
    enum fate fate = work_write_to(&editor->work, name, n, why, sizeof why);
    return tell_why(editor, fate, why);
}

enum fate serve(struct editor *editor, const uint8_t *text, size_t n)
{
    editor->told = work_do(&editor->work, text, n);
    enum fate fate = say_typed(editor);
    if (fate == GOES_ON && editor->told.code != 0)
        fate = say_code(editor);
    if (fate == GOES_ON && editor->work.options->steps)
        fate = say_last_steps(editor);
    return fate == GOES_ON && teco_done(&editor->work.session) == 1 ? write_output(editor) : fate;
}

/* Does what a string of the sources asks, which is the last one then. */
static enum fate serve_source(struct editor *editor, const uint8_t *text, size_t n)
{
    editor->last.count = 0;
    return bytes_add(&editor->last, text, n) ? serve(editor, editor->last.at, n) : NO_MEMORY;
}

enum fate serve_sources(struct editor *editor)
{
    const struct bytes *strings = &editor->work.options->strings;
    const uint8_t *text;
    char left[WHY];
    size_t at = 0, n;
    enum fate fate = GOES_ON;
    while (fate == GOES_ON && !editor->is_naming && !editor->has_warned && !editor->told.is_broken_off
        && (text = sources_next(strings, &at, &n)) != NULL)
        fate = serve_source(editor, text, n);
    if (fate == GOES_ON && sources_tell(strings, at, left, sizeof left))
        fate = shown(tty_say(left) && tty_say("\r\n"));
    return fate;
}
