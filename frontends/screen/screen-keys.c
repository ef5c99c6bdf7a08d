/* Keys, pastes and previews, as they come, and what they do. */
#include "screen.h"
#include <stdio.h>
#include <stdlib.h>
#include <string.h>

/* How long the screen waits for a preview before it shows the key alone; and nothing, to see what is there. */
enum { MOMENT = 6 };
static const struct timespec SOON = {.tv_nsec = MOMENT * 1000000}, AT_ONCE;

static enum fate ring(void)
{
    return shown(tty_say("\a"));
}

/* Leaves without writing. Where something would be lost, it asks once. */
static enum fate leave(struct screen *screen, bool has_asked)
{
    if (has_asked || !work_has_edits(&screen->work))
        return work_leave(&screen->work);
    screen->has_asked = true;
    (void)snprintf(screen->message, sizeof screen->message, "Edits are not written: EX writes them, Ctrl-D once more leaves without.");
    return GOES_ON;
}

static enum fate drop(struct screen *screen)
{
    if (screen->is_naming)
        line_clear(&screen->line);
    else
        line_drop(&screen->line);
    screen->is_naming = false;
    screen->is_other = true;
    return GOES_ON;
}

/* What a change of the line asks for. */
static enum fate obey(struct screen *screen, enum edit edit)
{
    switch (edit) {
    case LINE_EDITED: screen->is_other = true; return GOES_ON;
    case LINE_RUNS: return screen_run(screen);
    case LINE_NAMED: screen->is_naming = false; return screen_name(screen);
    case LINE_DROPPED: return drop(screen);
    case LINE_REFUSED: return ring();
    case LINE_NO_MEMORY: return NO_MEMORY;
    default: return GOES_ON;
    }
}

/* What every key does first: what was said or shown for the one before is gone, and the window goes back. True where that was the help. */
static bool begin_key(struct screen *screen)
{
    bool was_helped = screen->is_helped;
    screen->is_other |= screen->is_scrolled && !screen->is_stepping;
    screen->message[0] = '\0';
    screen->is_helped = screen->has_asked = screen->has_warned = screen->is_scrolled = false;
    screen->seeks = STAYS;
    return was_helped;
}

/* Whether a key only leaves the help or the steps; every other one does besides what it does. */
static bool is_for_leaving(uint8_t key)
{
    return key == ESCAPE || key == RETURN || key == DELETE || key == CONTROL('C') || key == tty_erase_key();
}

static enum fate press(void *to, uint8_t key)
{
    struct screen *screen = to;
    bool has_asked = screen->has_asked, has_warned = screen->has_warned;
    if (begin_key(screen) && is_for_leaving(key))
        return GOES_ON;
    if (screen->is_stepping && is_for_finding(key)) {
        screen_find(screen, key);
        return GOES_ON;
    }
    if (screen->is_stepping) {
        screen_end_steps(screen, key == RETURN);
        if (is_for_leaving(key))
            return GOES_ON;
    }
    bool is_first = screen->line.text.count == 0 && !screen->line.is_quoted && !screen->is_naming;
    if (is_first && key == CONTROL('D'))
        return leave(screen, has_asked);
    if (is_first && has_warned && key == RETURN)
        return screen_name(screen);
    return obey(screen, line_press(&screen->line, key, screen->is_naming));
}

static enum fate step(struct screen *screen, enum sequence key)
{
    uint64_t steps = 0, at, tenth;
    (void)work_steps(&screen->work, &steps);
    at = screen->is_stepping ? screen->step : steps;
    tenth = steps / 10 + 1;
    switch (key) {
    case LEFT: screen_step(screen, at > 0 ? at - 1 : 0); break;
    case RIGHT: screen_step(screen, at + 1); break;
    case PAGE_UP: screen_step(screen, at > tenth ? at - tenth : 0); break;
    case PAGE_DOWN: screen_step(screen, at + tenth); break;
    case HOME: screen_step(screen, 0); break;
    default: screen_step(screen, steps);
    }
    return screen->is_stepping ? GOES_ON : ring();
}

/* The rows by which a key scrolls. */
static int rows_of(enum sequence key)
{
    struct window window;
    draw_size(&window);
    int most = window.rows > 3 ? (int)window.rows - 2 : 1;
    switch (key) {
    case ROW_UP: return -1;
    case ROW_DOWN: return 1;
    case WHEEL_UP: return -3;
    case WHEEL_DOWN: return 3;
    case SCREEN_UP: return -most;
    case SCREEN_DOWN: return most;
    default: return 0;
    }
}

/* Shows the same again: in another size, or in another window. */
static void show_again(struct screen *screen)
{
    if (screen->is_stepping)
        screen_step(screen, screen->step);
    else
        screen->is_other = true;
}

/* Goes to the next change of the string that is out of the window, or to the one before. */
static void seek_change(struct screen *screen, enum sequence key)
{
    size_t from, to;
    window_edges(&from, &to);
    screen->seeks = key == NEXT_CHANGE ? TO_NEXT_CHANGE : TO_CHANGE_BEFORE;
    screen->edge = key == NEXT_CHANGE ? to : from;
}

/* Whether a key changes nothing but what is seen: then it is shown again. */
static bool changes_look(struct screen *screen, enum sequence key)
{
    switch (key) {
    case PANE: turn_pane(); break;
    case LINE_NUMBERS: turn_numbers(); break;
    case OLD_TEXT: turn_old(); break;
    case NEXT_CHANGE: case CHANGE_BEFORE: seek_change(screen, key); break;
    default: return false;
    }
    show_again(screen);
    return true;
}

/* Brings back what was typed before, for which the steps are left. */
static enum fate recall(struct screen *screen, bool is_older)
{
    if (screen->is_stepping)
        screen_end_steps(screen, false);
    return screen->is_naming ? ring() : obey(screen, line_recall(&screen->line, is_older));
}

static enum fate press_sequence(void *to, const uint8_t *bytes, size_t n)
{
    struct screen *screen = to;
    enum sequence key = sequence_of(bytes, n);
    bool is_empty = screen->line.text.count == 0 && !screen->is_naming, was_scrolled = screen->is_scrolled;
    if (key == MOUSE)
        return GOES_ON;
    screen->line.is_quoted = false;
    bool was_helped = begin_key(screen);
    if (key == HELP) {
        screen->is_helped = !was_helped || help_has_more();
        screen->help_page = was_helped ? screen->help_page + 1 : 0;
        return GOES_ON;
    }
    if (changes_look(screen, key))
        return GOES_ON;
    if (rows_of(key) != 0) {
        screen->scroll = was_scrolled ? screen->scroll : 0;
        screen_scroll(screen, rows_of(key));
        return GOES_ON;
    }
    if (key == OLDER || key == NEWER)
        return recall(screen, key == OLDER);
    if (!screen->is_naming && is_short(screen, key))
        return screen_run_short(screen, key);
    if (!is_empty)
        return obey(screen, line_move(&screen->line, key));
    if (key == OTHER || key == ERASE || key == RUN)
        return ring();
    if (key != UP && key != DOWN && key != SAVE)
        return step(screen, key);
    if (screen->is_stepping)
        screen_end_steps(screen, false);
    if (key == SAVE)
        (void)work_save(&screen->work, screen->message, sizeof screen->message);
    else
        screen_undo(screen, key == DOWN);
    return GOES_ON;
}

static enum fate paste(void *to, const uint8_t *bytes, size_t n)
{
    struct screen *screen = to;
    if (screen->is_stepping)
        screen_end_steps(screen, false);
    return obey(screen, line_paste(&screen->line, bytes, n, screen->is_naming));
}

static void begin_paste(void *to)
{
    struct screen *screen = to;
    (void)begin_key(screen);
    screen->line.is_quoted = false;
}

static const struct taker TAKER = {.press = press, .sequence = press_sequence, .paste = paste, .begin_paste = begin_paste};

/* An ESC alone may begin a sequence, and is taken into the string until that is known. */
static enum fate take_tentatively(struct screen *screen)
{
    bool is_of_string = !screen->is_stepping && !screen->is_helped && !screen->line.is_quoted && !screen->is_naming;
    if (!is_of_string || screen->is_tentative || screen->pending.count != 1 || line_is_escaped(&screen->line))
        return GOES_ON;
    screen->is_tentative = screen->is_other = true;
    return line_insert(&screen->line, screen->pending.at, 1) ? GOES_ON : NO_MEMORY;
}

/* Takes what came. What may be the beginning of a sequence waits for so long as bytes may be apart that come together. */
static enum fate receive(struct screen *screen, bool is_late)
{
    bool is_escape = screen->pending.count == 1 && screen->pending.at[0] == ESCAPE;
    if (keys_are_open(&screen->keys, &screen->pending) && !is_late)
        return take_tentatively(screen);
    bool was_tentative = screen->is_tentative, was_scrolled = screen->is_scrolled;
    screen->is_tentative = false;
    if (was_tentative)
        line_cut(&screen->line, screen->line.cursor - 1, screen->line.cursor);
    enum fate fate = keys_receive(&screen->keys, &screen->line, &screen->pending, &TAKER, screen);
    screen->pending.count = 0;
    if (was_tentative)
        screen->is_other = !is_escape || was_scrolled;
    return fate;
}

static enum fate read_keys(struct screen *screen)
{
    enum event event;
    do
        event = tty_take(&screen->pending);
    while (event == CAME && screen->pending.count < LONGEST && screen->pending.count > 1 && tty_wait(-1, &AT_ONCE) == CAME);
    if (screen->pending.count == 0 && event != CAME)
        return event == ENDED ? TERMINAL_GONE : READ_FAULT;
    return receive(screen, event != CAME);
}

static void take_view(struct screen *screen)
{
    if (!preview_came(&screen->preview)) {
        screen_look(screen);
        (void)snprintf(screen->message, sizeof screen->message, "the preview was ended by a fault");
        return;
    }
    screen->is_previewed = screen->line.text.count > 0 || screen->is_stepping;
    if (screen->is_previewed) {
        screen->top = screen->preview.seen->from;
        screen->scroll = 0;
    }
    if (screen->is_previewed && screen->preview.seen->is_missed && !screen->preview.is_busy)
        (void)ring();
}

/* Begins a preview of what is typed now, and waits a little for it, so that both are drawn at once. */
static void follow(struct screen *screen)
{
    if (screen->is_other)
        screen_try(screen);
    while (screen->preview.is_busy && since(&screen->preview.begun) < MOMENT && tty_wait(screen->preview.link, &SOON) == TOLD)
        take_view(screen);
}

static void break_off(struct screen *screen)
{
    preview_end(&screen->preview);
    screen->preview.seen->goes_on = false;
    screen->preview.seen->is_broken_off = true;
}

/* After a stop, or in another size, all is drawn anew. */
static void resume(struct screen *screen)
{
    tty_resume();
    screen->keys.is_pasted = false;
    draw_anew();
    show_again(screen);
}

/* Waits for what comes next. While nothing comes after a change, the lines of the text are counted, and a copy is made for the next key. */
static enum event await(struct screen *screen)
{
    if (screen->pending.count > 0) {
        bool is_pair = screen->pending.count == 1 && !screen->is_tentative && line_is_escaped(&screen->line);
        return tty_wait(screen->preview.link, is_pair ? &TTY_PAIR_GAP : &TTY_GAP);
    }
    if (screen->preview.is_busy) {
        struct timespec patience = preview_patience(&screen->preview);
        return tty_wait(screen->preview.link, &patience);
    }
    if (!lines_are_counted() || screen->preview.process == 0) {
        enum event event = tty_wait(screen->preview.link, &AT_ONCE);
        if (event != LATE)
            return event;
        if (!lines_are_counted())
            lines_count(&screen->work.session);
        (void)preview_prepare(&screen->preview);
    }
    return tty_wait(screen->preview.link, NULL);
}

/* Whether more of a paste is there to be read: what it has till now is then neither tried nor drawn. */
static bool is_pasting(const struct screen *screen)
{
    return screen->keys.is_pasted && tty_wait(-1, &TTY_GAP) == CAME;
}

enum fate screen_converse(struct screen *screen)
{
    enum fate fate = GOES_ON;
    bool is_shown = true;
    while (fate == GOES_ON) {
        (void)keep_tells(&screen->work.keeper, screen->message, sizeof screen->message);
        if (is_shown)
            draw(screen);
        switch (await(screen)) {
        case CAME: fate = read_keys(screen); break;
        case TOLD: take_view(screen); break;
        case RESUMED: resume(screen); break;
        case LATE:
            if (screen->pending.count > 0)
                fate = receive(screen, true);
            else
                break_off(screen);
            break;
        default: fate = READ_FAULT;
        }
        is_shown = fate == GOES_ON && !is_pasting(screen);
        if (is_shown)
            follow(screen);
    }
    return fate;
}
