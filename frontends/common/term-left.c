/* A session that was left, by a crash or a signal or a terminal that went away: whether there is one, and going on with it. */
#include "terminal.h"
#include <stdio.h>
#include <string.h>

static const uint8_t *bytes_of(const struct bytes *bytes)
{
    return bytes->count > 0 ? bytes->at : (const uint8_t *)"";
}

/* Begins a session over what INPUT has, which stands as the base where a session over another text was left. */
static enum fate begin(struct work *work)
{
    struct bytes *input = work->is_saved ? &work->saved : &work->input;
    size_t lines = (size_t)work->options->lines, depth = (size_t)work->options->depth;
    bool is_wide = work->options->wide;
    if ((is_wide ? teco_open_wide : teco_open)(&work->session, bytes_of(input), input->count, lines, depth) != 0)
        return NO_MEMORY;
    work->size = input->count;
    work->lines = work->options->lines;
    work->is_left = work->is_saved = false;
    work->verified = 0;
    keep_begin(&work->keeper, is_wide, bytes_of(input), input->count, lines, depth);
    keep_want(&work->keeper, false);
    bytes_free(input);
    return GOES_ON;
}

/* Why a session can't be gone on with. */
static const char *reason_of(uint8_t code)
{
    switch (code) {
    case TECO_CHANGED_HEAD: return "it is of another version, or was changed";
    case TECO_OTHERWISE: return "its strings don't run as they ran";
    case TECO_MEM: return "no memory";
    default: return "it can't be read";
    }
}

/* Sets the file aside, since it can't be gone on with, and says so. */
static void set_aside(struct work *work, uint8_t code)
{
    struct keeper *keeper = &work->keeper;
    if (keep_set_aside(keeper) && !keeper->has_failed)
        (void)snprintf(keeper->note, sizeof keeper->note, "a session was left that can't be gone on with: %s. It is in %s", reason_of(code), keeper->aside);
}

/* Whether the session that was left is over the bytes that INPUT has now. */
static bool is_over(const struct work *work, const struct bytes *input)
{
    enum { PIECE = 1 << 16 };
    static uint8_t piece[PIECE];
    size_t at = 0, left;
    do {
        if (teco_input(&work->session, at, piece, PIECE, &left) != 0 || left != input->count - at)
            return false;
        size_t n = left < PIECE ? left : PIECE;
        if (n > 0 && memcmp(piece, input->at + at, n) != 0)
            return false;
        at += n;
    } while (left > PIECE);
    return true;
}

/* Compares what was left with INPUT. True where something would be lost, or lines stand in the file that can't be read. */
static bool would_lose(struct work *work)
{
    size_t strings = 0;
    (void)teco_strings(&work->session, &strings);
    (void)teco_input(&work->session, 0, work->room, 0, &work->size);
    work->is_same = is_over(work, &work->input);
    if (!work->is_same) {
        work->saved = work->input;
        work->input = (struct bytes){0};
        work->saved_place = SIZE_MAX;
        work->is_saved = true;
    }
    return work->resumed.ending >= TECO_CHANGED || (strings > 0 && work_has_edits(work));
}

enum fate left_look(struct work *work)
{
    struct bytes file = {0};
    keep_open(&work->keeper, work->options->input, work->is_new || S_ISREG(work->known.st_mode));
    enum fate fate = keep_read(&work->keeper, &file, &work->when);
    uint8_t code = fate == NO_MEMORY ? TECO_MEM : TECO_LARGE;
    if (fate == GOES_ON)
        code = teco_resume(&work->session, bytes_of(&file), file.count, &work->resumed);
    bytes_free(&file);
    work->is_left = code == 0 && would_lose(work);
    if (work->is_left)
        return GOES_ON;
    if (code != 0 && code != TECO_TORN_HEAD)
        set_aside(work, code);
    return begin(work);
}

/* Says what was left, and asks. */
static bool say_left(struct work *work)
{
    char when[40] = "", text[200];
    struct tm time;
    size_t strings = 0;
    (void)teco_strings(&work->session, &strings);
    if (localtime_r(&work->when, &time) != NULL)
        (void)strftime(when, sizeof when, "%Y-%m-%d %H:%M", &time);
    (void)snprintf(text, sizeof text, "A session of %zu string%s was left, of %s, over %s.\r\n", strings, strings == 1 ? "" : "s", when,
        work->is_same ? "this text" : "another text than this one has now");
    return tty_say(text)
        && (work->resumed.ending < TECO_CHANGED || tty_say("Behind them its file was changed: what stands there can't be gone on with.\r\n"))
        && tty_say("Return goes on; another key begins anew and keeps it as ") && tty_say(keep_aside(&work->keeper)) && tty_say(".\r\n");
}

/* Asks until a key comes. */
static enum fate ask(struct work *work, bool *goes_on)
{
    struct bytes keys = {0};
    enum event event;
    do {
        tty_resume();
        event = say_left(work) ? tty_read(&keys) : FAILED;
    } while (event == RESUMED);
    *goes_on = event == CAME && keys.count == 1 && (keys.at[0] == RETURN || keys.at[0] == LINE_FEED);
    bytes_free(&keys);
    return event == CAME ? GOES_ON : event == ENDED ? TERMINAL_GONE : READ_FAULT;
}

/* Puts a string of the session into the journal, and among those that come back as text. */
static bool take_string(struct work *work, size_t i)
{
    size_t n;
    uint64_t steps;
    struct bytes text = {0};
    bool is_taken = teco_string(&work->session, i, work->room, 0, &n) == 0 && bytes_reserve(&text, n + 1)
        && teco_string(&work->session, i, text.at, n, &n) == 0 && teco_steps(&work->session, i, &steps) == 0
        && journal_reserve(&work->journal, n);
    if (is_taken) {
        journal_note(&work->journal, text.at, n, NOT_KNOWN, steps);
        (void)past_add(text.at, n > 0 && text.at[n - 1] == ESCAPE ? n - 1 : n);
    }
    bytes_free(&text);
    return is_taken;
}

/* Goes on with the session that was left. An exit that ended it is undone, so that it can be looked at and made again. */
static enum fate go_on(struct work *work)
{
    size_t count = 0, cursor = 0;
    (void)teco_strings(&work->session, &count);
    (void)teco_cursor(&work->session, &cursor);
    for (size_t i = 0; i < count; i++) {
        if (!take_string(work, i))
            return NO_MEMORY;
    }
    journal_move(&work->journal, cursor);
    if (!work->is_same)
        work->known = (struct stat){0};
    bytes_free(&work->input);
    keep_go_on(&work->keeper, &work->resumed);
    work->lines = work->resumed.lines;
    work->is_gone_on = true;
    if (teco_done(&work->session) == 1)
        (void)work_undo(work, 1);
    work_want(work);
    return GOES_ON;
}

enum fate left_ask(struct work *work)
{
    bool goes_on;
    if (!work->is_left)
        return GOES_ON;
    enum fate fate = ask(work, &goes_on);
    if (fate != GOES_ON)
        return fate;
    if (goes_on)
        return go_on(work);
    (void)keep_set_aside(&work->keeper);
    return begin(work);
}
