/* What a string asks of the session, what is tried of it before, and the ways through what was done. */
#include "screen.h"
#include <stdio.h>
#include <string.h>

const struct view *screen_view(const struct screen *screen)
{
    return screen->is_previewed ? screen->preview.seen : &screen->still;
}

const uint8_t *screen_line(const struct screen *screen, size_t *n)
{
    const struct journal *journal = &screen->work.journal;
    if (screen->is_stepping && journal->cursor > 0)
        return journal_text(journal, journal->cursor - 1, n);
    *n = screen->line.text.count;
    return screen->line.text.at;
}

/* The window that is to be looked at next. */
static struct window window_of(const struct screen *screen)
{
    struct window window = {.top = screen->top, .is_free = screen->is_scrolled || screen->seeks != STAYS, .is_scrolled = screen->is_scrolled,
        .scroll = screen->scroll, .seeks = screen->seeks, .edge = screen->edge};
    draw_size(&window);
    return window;
}

/* Looks at the session itself: after a string, an undo or a redo, and where nothing is typed. */
void screen_look(struct screen *screen)
{
    struct window window = window_of(screen);
    screen->still.subject = OF_SESSION;
    look(&screen->work.session, &screen->still, &window);
    screen->top = screen->still.from;
    screen->scroll = 0;
    screen->is_previewed = false;
    if (screen->still.is_missed)
        (void)tty_say("\a");
}

static void say(struct screen *screen, const char *text)
{
    (void)snprintf(screen->message, sizeof screen->message, "%s", text);
}

/* Begins a preview, which has the window of the screen. */
void screen_begin(struct screen *screen, struct request request, const uint8_t *text)
{
    request.window = window_of(screen);
    if (!preview_begin(&screen->preview, &request, text)) {
        screen_look(screen);
        say(screen, "no copy of the process can be made: the string is not shown as it is typed");
    }
}

/* Shows what the string does that is typed so far. */
void screen_try(struct screen *screen)
{
    const uint8_t *text = screen->line.text.at;
    uint64_t number;
    size_t n = line_string(&screen->line);
    screen->is_other = false;
    if (n == 0 || screen->is_naming || n > LONGEST) {
        preview_end(&screen->preview);
        screen_look(screen);
        if (n > LONGEST)
            say(screen, "too long to be shown as it is typed");
        return;
    }
    struct request request = {.subject = OF_STRING, .n = n};
    size_t asked = text[n - 1] == ESCAPE ? n - 1 : n;
    switch (work_asks(text, asked, &number)) {
    case '{': request.subject = OF_UNDO; break;
    case '}': request.subject = OF_REDO; break;
    case '~': request.subject = OF_STEP; break;
    default: break;
    }
    request.number = number;
    screen_begin(screen, request, text);
}

/* The session is about to change: no copy of it is right any more, and nor is a count of its lines, once it has. */
static void begin_change(struct screen *screen)
{
    preview_end(&screen->preview);
    screen->message[0] = '\0';
    screen->still.told = (struct told){.at = TECO_NOWHERE};
    screen->still.tail = 0;
}

static void end_change(struct screen *screen)
{
    lines_forget();
    screen_look(screen);
    screen->is_other = false;
}

/* Writes the output after an exit. Where it can't be, the session is before it again, and another name is asked for. */
static enum fate conclude_writing(struct screen *screen, enum fate fate)
{
    if (fate == EXIT || fate == NO_MEMORY)
        return fate;
    screen->is_naming = fate == GOES_ON;
    screen->has_warned = fate == CHANGED_FILE;
    end_change(screen);
    return GOES_ON;
}

/* Nothing is drawn while a string runs. One that was seen to run long is said to run before it does. */
static void draw_running(struct screen *screen)
{
    const struct view *seen = screen->preview.seen;
    if (screen->is_previewed && (seen->goes_on || seen->is_broken_off)) {
        say(screen, "running: Ctrl-C breaks it off");
        draw(screen);
    }
}

/* Runs a string of n bytes, with the first ESC of its pair, and keeps it. */
static void run(struct screen *screen, const uint8_t *text, size_t n)
{
    begin_change(screen);
    struct told told = work_do(&screen->work, text, n);
    if (told.at == TECO_NOWHERE && told.steps == 0)
        (void)work_steps(&screen->work, &told.steps);
    screen->still.told = told;
    screen->still.tail = told.made < TAIL ? told.made : TAIL;
    memcpy(screen->still.typed, screen->work.room + told.made - screen->still.tail, screen->still.tail);
    note_printed(screen->work.room, told.made);
}

/* Runs the first string that is typed, whose pair of ESC is whole. What follows stays in the line, but where a name is wanted. */
enum fate screen_run(struct screen *screen)
{
    struct bytes rest = {0};
    if (!line_split(&screen->line, &rest))
        return NO_MEMORY;
    draw_running(screen);
    run(screen, screen->line.text.at, screen->line.text.count - 1);
    line_next(&screen->line, &rest);
    if (teco_done(&screen->work.session) != 1) {
        end_change(screen);
        screen->is_other = screen->line.text.count > 0;
        return GOES_ON;
    }
    line_drop(&screen->line);
    return conclude_writing(screen, work_write(&screen->work, screen->message, sizeof screen->message));
}

enum fate screen_sources(struct screen *screen)
{
    const struct bytes *strings = &screen->work.options->strings;
    const uint8_t *text;
    char said[sizeof screen->message] = "";
    size_t at = 0, n, number = 0;
    enum fate fate = GOES_ON;
    while (fate == GOES_ON && !screen->is_naming && !screen->has_warned && !screen->still.told.is_broken_off
        && (text = sources_next(strings, &at, &n)) != NULL) {
        run(screen, text, n);
        number++;
        if (screen->still.told.code != 0 && said[0] == '\0')
            (void)snprintf(said, sizeof said, "string %zu of -f: ?%s: %s", number, code_letters(screen->still.told.code),
                told_sentence(&screen->still.told));
        if (teco_done(&screen->work.session) == 1)
            fate = conclude_writing(screen, work_write(&screen->work, screen->message, sizeof screen->message));
    }
    if (screen->message[0] == '\0' && (said[0] != '\0' || sources_tell(strings, at, said, sizeof said)))
        say(screen, said);
    return fate;
}

enum fate screen_name(struct screen *screen)
{
    begin_change(screen);
    const struct bytes *name = &screen->line.text;
    enum fate fate = work_write_to(&screen->work, name->at, name->count, screen->message, sizeof screen->message);
    line_clear(&screen->line);
    return conclude_writing(screen, fate);
}

void screen_undo(struct screen *screen, bool is_redo)
{
    begin_change(screen);
    screen->still.told.code = is_redo ? work_redo(&screen->work, 1) : work_undo(&screen->work, 1);
    work_want(&screen->work);
    (void)work_steps(&screen->work, &screen->still.told.steps);
    end_change(screen);
}

/* Goes over the steps of the last string. Where they were not gone through before, it begins at the last one. */
void screen_step(struct screen *screen, uint64_t to)
{
    if (!screen->is_stepping && !work_steps(&screen->work, &screen->steps))
        return;
    screen->is_stepping = true;
    screen->step = to < screen->steps ? to : screen->steps;
    screen_begin(screen, (struct request){.subject = OF_STEP, .number = screen->step}, NULL);
}

/* Goes over the text, of which as much is as was: the pointer and the history stay. */
void screen_scroll(struct screen *screen, int rows)
{
    screen->is_scrolled = true;
    screen->scroll += rows;
    if (screen->is_stepping)
        screen_step(screen, screen->step);
    else
        screen->is_other = true;
}

/* Stays at a step, which is a rewind, or goes back to the end of the string. */
void screen_end_steps(struct screen *screen, bool stays)
{
    begin_change(screen);
    screen->is_stepping = false;
    if (stays && screen->step < screen->steps) {
        screen->still.told.code = work_rewind(&screen->work, screen->step);
        work_want(&screen->work);
    }
    (void)work_steps(&screen->work, &screen->still.told.steps);
    end_change(screen);
}
