/* What the copy of the process does: it runs the string as it stands, with an open text closed, looks at what that came to, and takes it
   back by an undo. What runs long is run under one limit after the other, so that there is something to be seen meanwhile. */
#include "screen.h"
#include <stdio.h>
#include <string.h>
#include <sys/resource.h>
#include <time.h>
#include <unistd.h>

/* The steps of the first run, how much more each next one has, and after how many milliseconds a run is told of that isn't the last. The
   bytes that the copy may ask for, and the seconds after which it ends where nobody is left to end it. */
enum { FIRST_LIMIT = 50, GROWS = 8, SOON = 20 };
enum { MEMORY = 1 << 28, LAST_SECONDS = 5 };

static struct view view;
static uint8_t closed[LONGEST + 2];

/* The text that is open, if it is that of a search. */
static struct {
    const uint8_t *text;
    size_t n;
} search;

double since(const struct timespec *time)
{
    struct timespec now;
    (void)clock_gettime(CLOCK_MONOTONIC, &now);
    return (double)(now.tv_sec - time->tv_sec) * 1e3 + (double)(now.tv_nsec - time->tv_nsec) / 1e6;
}

/* Runs n bytes, and puts how that ended into the view. */
static void run(struct work *work, const uint8_t *text, size_t n, uint64_t limit)
{
    struct told *told = &view.told;
    work_run(work, text, n, limit, &(struct teco_stopper){0}, told);
    view.tail = told->made < TAIL ? told->made : TAIL;
    memcpy(view.typed, work->room + told->made - view.tail, view.tail);
}

/* Runs the string that is typed. Where its end is reached inside of a text, that is closed, and it is run once more. */
static void run_open(struct work *work, const uint8_t *text, size_t n, uint64_t limit)
{
    run(work, text, n, limit);
    struct told *told = &view.told;
    if (told->code != CODE_UTC || told->calls > 0 || told->at >= n)
        return;
    token_reader *reader = work_reader(work);
    struct closing closing = close_text(reader, text, n, told->at, closed);
    if (closing.closed == 0 && closing.left_out == TECO_NOWHERE)
        return;
    (void)teco_undo(&work->session);
    search.text = search_text(reader, closed, closing.n, told->at, &search.n);
    run(work, closed, closing.n, limit);
    view.closed = closing.closed;
    view.is_search_alone = closing.left_out != TECO_NOWHERE;
    if (told->at != TECO_NOWHERE && told->at > closing.left_out)
        told->at++;
    if (told->at != TECO_NOWHERE && told->at > n)
        told->at = n;
}

/* No more memory than is in use and so much beside. */
static void bound_memory(void)
{
    unsigned long pages = 0;
    FILE *file = fopen("/proc/self/statm", "r");
    if (file != NULL && fscanf(file, "%lu", &pages) == 1) {
        rlim_t most = pages * (rlim_t)sysconf(_SC_PAGESIZE) + MEMORY;
        (void)setrlimit(RLIMIT_AS, &(struct rlimit){most, most});
    }
    if (file != NULL)
        (void)fclose(file);
}

static void begin_view(const struct request *request)
{
    view.subject = request->subject;
    view.told = (struct told){.at = TECO_NOWHERE};
    view.n = request->n;
    view.closed = view.tail = 0;
    view.is_search_alone = view.goes_on = view.is_broken_off = false;
    view.same = (struct same){SIZE_MAX, SIZE_MAX};
    search.n = 0;
}

/* Takes the string back, if it was begun. */
static bool take_back(struct work *work)
{
    return view.told.code != TECO_NOT_BEGUN && view.told.code != TECO_END && teco_undo(&work->session) == 0;
}

/* Reads the text that the string took out of the window, for which it is taken back, if there is any. Whether it is. */
static bool read_old(struct work *work)
{
    bool is_back = view.old_count > 0 && take_back(work);
    if (is_back)
        old_read(&work->session, &view);
    else
        view.old_count = 0;
    return is_back;
}

/* Readies the buffer of the copy for an insertion where the string ended, if no request waits. The first insertion at a place moves up to all
   of the text, and in a copy of the process it copies as many pages: so it is made before the key that wants it. */
static void ready_place(struct work *work)
{
    char text[40];
    struct told told;
    size_t length;
    if (preview_is_awaited() || teco_length(&work->session, &length) != 0)
        return;
    int n = snprintf(text, sizeof text, "%zuJ@I/x/", view.pointer < length ? view.pointer : length);
    work_run(work, (const uint8_t *)text, (size_t)n, FIRST_LIMIT, &(struct teco_stopper){0}, &told);
    if (told.code != TECO_NOT_BEGUN && told.code != TECO_END)
        (void)teco_undo(&work->session);
}

/* The string, under one limit after the other, until it ends by another reason. */
static void try_string(struct work *work, const struct request *request, const uint8_t *text)
{
    struct timespec begun;
    (void)clock_gettime(CLOCK_MONOTONIC, &begun);
    (void)alarm(LAST_SECONDS);
    uint64_t limit = FIRST_LIMIT;
    do {
        uint64_t most = limit < work->options->limit ? limit : work->options->limit;
        begin_view(request);
        run_open(work, text, request->n, most);
        view.goes_on = view.told.code == TECO_LIM && most < work->options->limit;
        bool is_back = false;
        if (!view.goes_on || since(&begun) > SOON) {
            look(&work->session, &view, &request->window);
            if (search.n > 0)
                mark_hits(&view, &request->window, search.text, search.n, teco_either_case(&work->session) == 1);
            is_back = read_old(work);
            preview_tell(&view);
        }
        if (!is_back)
            (void)take_back(work);
        limit *= GROWS;
    } while (view.goes_on);
    ready_place(work);
    (void)alarm(0);
}

static void tell_steps(struct work *work, const struct request *request, uint8_t code, bool goes_on)
{
    view.told.code = code;
    view.told.steps = request->number;
    view.goes_on = goes_on;
    look(&work->session, &view, &request->window);
    preview_tell(&view);
}

/* The state after a step by a rewind, which is quick near the end; and then the token that comes next, by a run from the beginning. */
static void try_step(struct work *work, const struct request *request)
{
    size_t cursor, n;
    (void)alarm(LAST_SECONDS);
    begin_view(request);
    keep_same(&work->session, &view);
    uint8_t code = teco_rewind(&work->session, request->number);
    tell_steps(work, request, code, code == 0);
    if (code != 0 || teco_cursor(&work->session, &cursor) != 0 || teco_string(&work->session, cursor - 1, closed, LONGEST, &n) != 0)
        return;
    if (n <= LONGEST && teco_undo(&work->session) == 0)
        run(work, closed, n, request->number);
    tell_steps(work, request, 0, false);
}

static void try_history(struct work *work, const struct request *request)
{
    begin_view(request);
    for (uint64_t i = 0; view.told.code == 0 && i < request->number; i++) {
        if (request->subject == OF_UNDO)
            keep_same(&work->session, &view);
        view.told.code = request->subject == OF_UNDO ? teco_undo(&work->session) : teco_redo(&work->session);
        if (request->subject == OF_REDO)
            keep_same(&work->session, &view);
    }
    look(&work->session, &view, &request->window);
    preview_tell(&view);
}

void preview_be_copy(struct work *work, const uint8_t *text)
{
    struct request request = {.subject = OF_STRING};
    bound_memory();
    while (request.subject == OF_STRING && preview_next(&request)) {
        if (request.subject == OF_STRING)
            try_string(work, &request, text);
        else if (request.subject == OF_STEP)
            try_step(work, &request);
        else
            try_history(work, &request);
    }
}
