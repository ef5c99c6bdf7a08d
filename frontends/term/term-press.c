/* What keys and pastes do to the string that is being typed. */
#include "term-editor.h"
#include <string.h>

/* Goes to the next line of the screen, where the line is drawn anew. The one that was typed stays as the last. */
static enum fate begin_line(struct editor *editor)
{
    editor->drawing = (struct drawing){.prompt = editor->drawing.prompt};
    editor->line.kept = 0;
    return shown(tty_say("\r\n"));
}

/* Shows the line with the cursor at its end: what comes next is shown behind it. */
static enum fate show_end(struct editor *editor)
{
    editor->line.cursor = editor->line.text.count;
    return line_show(&editor->line, &editor->drawing);
}

/* Runs the first string that is typed, and goes on with what follows its pair. Before a name is typed, that is dropped. */
static enum fate run_typed(struct editor *editor)
{
    struct bytes rest = {0};
    bool is_split = line_split(&editor->line, &rest);
    enum fate fate = is_split ? show_end(editor) : NO_MEMORY;
    editor->last.count = 0;
    if (fate == GOES_ON && !bytes_add(&editor->last, editor->line.text.at, editor->line.text.count - 1))
        fate = NO_MEMORY;
    if (is_split)
        line_next(&editor->line, &rest);
    if (fate == GOES_ON)
        fate = begin_line(editor);
    if (fate == GOES_ON)
        fate = serve(editor, editor->last.at, editor->last.count);
    if (editor->is_naming)
        line_drop(&editor->line);
    return fate;
}

/* The name of an output is whole. */
static enum fate take_name(struct editor *editor)
{
    enum fate fate = show_end(editor);
    if (fate != GOES_ON)
        return fate;
    struct bytes name = editor->line.text;
    editor->line.text = (struct bytes){0};
    line_clear(&editor->line);
    editor->is_naming = false;
    editor->drawing.prompt = NULL;
    fate = begin_line(editor);
    if (fate == GOES_ON)
        fate = name_output(editor, name.at, name.count);
    bytes_free(&name);
    return fate;
}

static enum fate drop(struct editor *editor, const char *key)
{
    enum fate fate = show_end(editor);
    if (fate == GOES_ON)
        fate = shown(tty_say(key));
    if (editor->is_naming)
        line_clear(&editor->line);
    else
        line_drop(&editor->line);
    editor->is_naming = false;
    editor->drawing.prompt = NULL;
    return fate == GOES_ON ? begin_line(editor) : fate;
}

static enum fate ring(void)
{
    return shown(tty_say("\a"));
}

/* Leaves without writing. Where something would be lost, it asks once. */
static enum fate leave(struct editor *editor, bool has_asked)
{
    if (!tty_say("^D\r\n"))
        return SHOW_FAULT;
    if (has_asked || !work_has_edits(&editor->work))
        return work_leave(&editor->work);
    editor->has_asked = true;
    editor->drawing = (struct drawing){0};
    return shown(tty_say("Edits are not written: EX writes them, and Ctrl-D once more leaves without.\r\n"));
}

/* What a change of the line asks for. */
static enum fate obey(struct editor *editor, enum edit edit, const char *drops)
{
    switch (edit) {
    case LINE_RUNS: return run_typed(editor);
    case LINE_NAMED: return take_name(editor);
    case LINE_DROPPED: return drop(editor, drops);
    case LINE_REFUSED: return ring();
    case LINE_NO_MEMORY: return NO_MEMORY;
    default: return GOES_ON;
    }
}

/* Goes on to the exit that would replace a file. */
static enum fate replace(struct editor *editor)
{
    enum fate fate = begin_line(editor);
    return fate == GOES_ON ? name_output(editor, NULL, 0) : fate;
}

/* A key. Some mean something else where nothing is typed yet. */
static enum fate press(struct editor *editor, uint8_t key)
{
    bool has_failed = editor->has_failed, has_asked = editor->has_asked, has_warned = editor->has_warned;
    bool is_first = editor->line.text.count == 0 && !editor->line.is_quoted && !editor->is_naming;
    editor->has_failed = editor->has_asked = editor->has_warned = false;
    if (is_first && key == CONTROL('D'))
        return leave(editor, has_asked);
    if (is_first && key == RETURN && has_warned)
        return replace(editor);
    if (is_first && key == '?' && has_failed) {
        editor->has_failed = true;
        editor->drawing = (struct drawing){0};
        return show_failed(editor);
    }
    return obey(editor, line_press(&editor->line, key, editor->is_naming), key == CONTROL('C') ? "^C" : "^G^G");
}

static enum fate press_key(void *to, uint8_t key)
{
    return press(to, key);
}

static enum fate take_pasted(void *to, const uint8_t *bytes, size_t n)
{
    struct editor *editor = to;
    return obey(editor, line_paste(&editor->line, bytes, n, editor->is_naming), "");
}

/* Writes what an exit would, and goes on. */
static enum fate save(struct editor *editor)
{
    char why[WHY];
    (void)work_save(&editor->work, why, sizeof why);
    editor->drawing = (struct drawing){0};
    return shown(tty_say("F3\r\n") && tty_say(why) && tty_say("\r\n"));
}

/* Up and Down bring back what was typed before, as the same keys with Alt do; the others move the cursor. */
static enum fate press_sequence(void *to, const uint8_t *bytes, size_t n)
{
    struct editor *editor = to;
    enum sequence key = sequence_of(bytes, n);
    bool is_older = key == UP || key == OLDER, is_newer = key == DOWN || key == NEWER;
    editor->line.is_quoted = false;
    if (editor->is_naming && (is_older || is_newer))
        return ring();
    if (key == SAVE && editor->line.text.count == 0 && !editor->is_naming) {
        editor->has_failed = editor->has_asked = editor->has_warned = false;
        return save(editor);
    }
    return obey(editor, is_older || is_newer ? line_recall(&editor->line, is_older) : line_move(&editor->line, key), "");
}

static void begin_paste(void *to)
{
    struct editor *editor = to;
    editor->has_failed = editor->has_asked = editor->has_warned = editor->line.is_quoted = false;
}

static const struct taker TAKER = {.press = press_key, .sequence = press_sequence, .paste = take_pasted, .begin_paste = begin_paste};

/* After a stop the screen is another's, and so may be the mark of a paste's end. */
static enum fate resume(struct editor *editor)
{
    tty_resume();
    editor->drawing.lost = true;
    editor->keys.is_pasted = false;
    return GOES_ON;
}

/* Reads what comes together. An ESC that would run the string may begin a sequence, whose rest is waited for. */
static enum event read_keys(struct editor *editor, struct bytes *together)
{
    enum event event = tty_read(together);
    bool is_open = event == CAME && !editor->keys.is_pasted && together->count == 1 && together->at[0] == ESCAPE;
    if (is_open && !editor->is_naming && line_is_escaped(&editor->line) && tty_wait(-1, &TTY_PAIR_GAP) == CAME)
        event = tty_take_all(together);
    return together->count > 0 ? CAME : event;
}

/* Shows the string as it is now; and before that what there is to tell of the session's file. */
static enum fate show_line(struct editor *editor)
{
    char note[WROTE];
    if (keep_tells(&editor->work.keeper, note, sizeof note) && !(tty_say(note) && tty_say("\r\n")))
        return SHOW_FAULT;
    return line_show(&editor->line, &editor->drawing);
}

enum fate converse(struct editor *editor)
{
    struct bytes together = {0};
    enum fate fate = show_line(editor);
    while (fate == GOES_ON) {
        switch (read_keys(editor, &together)) {
        case CAME: fate = keys_receive(&editor->keys, &editor->line, &together, &TAKER, editor); break;
        case RESUMED: fate = resume(editor); break;
        case ENDED: fate = TERMINAL_GONE; break;
        default: fate = READ_FAULT;
        }
        if (fate == GOES_ON)
            fate = show_line(editor);
    }
    bytes_free(&together);
    return fate;
}
