/* What a string comes to that a person types: it is run, or asks for undos, redos or a rewind; and the writing of the output. */
#include "terminal.h"
#include <errno.h>
#include <stdio.h>
#include <stdlib.h>
#include <string.h>

/* The name of the output. False where memory is refused. */
static bool name_output(struct work *work)
{
    const struct options *options = work->options;
    const char *output = options->output != NULL ? options->output : options->input;
    const char *suffix = options->output != NULL || work->is_new ? "" : ".out";
    size_t size = strlen(output) + sizeof ".out";
    work->output = malloc(size);
    if (work->output != NULL)
        (void)snprintf(work->output, size, "%s%s", output, suffix);
    return work->output != NULL;
}

enum fate work_open(struct work *work, const struct options *options)
{
    *work = (struct work){.options = options, .keeper = {.file = -1}};
    enum fate fate = file_read(options->input, &work->input, &work->known, &work->is_new);
    if (fate != GOES_ON)
        return fate;
    work->room = malloc(ROOM);
    if (work->room == NULL || !name_output(work) || teco_stopper_open(&work->asked, &work->asks) != 0)
        return NO_MEMORY;
    return left_look(work);
}

void work_close(struct work *work, enum fate fate)
{
    keep_end(&work->keeper, fate == EXIT || fate == SAVED || fate == END_OF_COMMANDS);
    journal_free(&work->journal);
    teco_close(&work->session);
    teco_stopper_close(&work->asked);
    teco_stopper_close(&work->asks);
    bytes_free(&work->input);
    bytes_free(&work->saved);
    free(work->output);
    free(work->room);
}

/* What is left of n bytes without the fillers at either end; n is how many they are then. */
static const uint8_t *without_fillers(const uint8_t *text, size_t *n)
{
    for (; *n > 0 && is_filler(*text); (*n)--)
        text++;
    while (*n > 0 && is_filler(text[*n - 1]))
        (*n)--;
    return text;
}

uint8_t work_asks(const uint8_t *text, size_t n, uint64_t *number)
{
    text = without_fillers(text, &n);
    *number = 0;
    if (n == 0 || n > 10)
        return 0;
    for (size_t i = 0; i + 1 < n; i++) {
        if (text[i] < '0' || text[i] > '9')
            return 0;
        *number = 10 * *number + (uint64_t)(text[i] - '0');
    }
    uint8_t last = text[n - 1];
    if (n == 1 && last != '~')
        *number = 1;
    return last == '{' || last == '}' || last == '~' ? last : 0;
}

/* Brings the journal to the cursor of the session. */
static void follow(struct work *work, size_t before)
{
    size_t now;
    if (teco_cursor(&work->session, &now) == 0)
        journal_move(&work->journal, work->journal.cursor + now - before);
}

static const uint8_t *const NO_TEXT = (const uint8_t *)"";

/* Asks for so many undos or redos, keeps them, and stops at the first that is refused. */
static uint8_t repeat(struct work *work, uint8_t kind, uint64_t times)
{
    uint8_t code = 0;
    size_t before = 0;
    (void)teco_cursor(&work->session, &before);
    for (uint64_t i = 0; code == 0 && i < times; i++) {
        code = kind == TECO_UNDID ? teco_undo(&work->session) : teco_redo(&work->session);
        if (code == 0)
            keep_add(&work->keeper, kind, 0, NO_TEXT, 0);
    }
    keep_sync(&work->keeper);
    follow(work, before);
    return code;
}

uint8_t work_undo(struct work *work, uint64_t times)
{
    return repeat(work, TECO_UNDID, times);
}

uint8_t work_redo(struct work *work, uint64_t times)
{
    return repeat(work, TECO_REDID, times);
}

uint8_t work_rewind(struct work *work, uint64_t steps)
{
    uint8_t code = teco_rewind(&work->session, steps);
    if (code != 0)
        return code;
    keep_add(&work->keeper, TECO_REWOUND, steps, NO_TEXT, 0);
    keep_sync(&work->keeper);
    journal_rewind(&work->journal, steps);
    return 0;
}

void work_run(struct work *work, const uint8_t *text, size_t n, uint64_t limit, const struct teco_stopper *asked, struct told *told)
{
    struct teco_run run = {
        .limit = limit, .stopper = *asked, .room = work->room, .room_size = ROOM, .frames = told->open, .frames_size = CALLS};
    told->code = teco_run(&work->session, text, n, &run);
    told->made = run.made;
    told->steps = run.steps;
    told->at = run.at;
    told->calls = run.calls;
}

/* Runs a string, which Ctrl-C breaks off. */
static void run(struct work *work, const uint8_t *text, size_t n, struct told *told)
{
    uint64_t limit = work->options->limit;
    if (!journal_reserve(&work->journal, n)) {
        told->code = TECO_NOT_BEGUN;
        return;
    }
    (void)teco_stop(&work->asks, 0);
    tty_watch(&work->asks);
    work_run(work, text, n, limit, &work->asked, told);
    tty_unwatch();
    told->is_broken_off = told->code == TECO_LIM && told->steps < limit;
    if (told->code != TECO_NOT_BEGUN && told->code != TECO_END) {
        keep_add(&work->keeper, TECO_RAN, told->steps, text, n);
        keep_sync(&work->keeper);
        journal_note(&work->journal, text, n, told->code, told->steps);
    }
    (void)past_add(text, n > 0 && text[n - 1] == ESCAPE ? n - 1 : n);
}

struct told work_do(struct work *work, const uint8_t *text, size_t n)
{
    struct told told = {.at = TECO_NOWHERE};
    uint64_t number;
    switch (work_asks(text, n > 0 && text[n - 1] == ESCAPE ? n - 1 : n, &number)) {
    case '{': told.code = work_undo(work, number); break;
    case '}': told.code = work_redo(work, number); break;
    case '~': told.code = work_rewind(work, number); break;
    default: run(work, text, n, &told);
    }
    work_want(work);
    return told;
}

bool work_steps(const struct work *work, uint64_t *steps)
{
    size_t count;
    *steps = 0;
    return teco_cursor(&work->session, &count) == 0 && count > 0 && teco_steps(&work->session, count - 1, steps) == 0;
}

typedef uint8_t look(const struct teco *session, size_t from, uint8_t *room, size_t size, size_t *length);

/* What was saved last, or else INPUT, from a place on. */
static bool look_at_base(const struct work *work, size_t from, uint8_t *room, size_t size, size_t *left)
{
    if (!work->is_saved)
        return teco_input(&work->session, from, room, size, left) == 0;
    *left = from < work->saved.count ? work->saved.count - from : 0;
    if (*left > 0)
        memcpy(room, work->saved.at + from, *left < size ? *left : size);
    return true;
}

/* Whether the bytes that a look gives from a place on are those of the base from `at` on, which goes behind them. */
static bool is_of_base(struct work *work, look *call, size_t from, size_t *at)
{
    enum { PIECE = 1 << 16 };
    static uint8_t piece[PIECE], wanted[PIECE];
    size_t length, left;
    do {
        if (call(&work->session, from, piece, PIECE, &length) != 0 || !look_at_base(work, *at, wanted, PIECE, &left) || length > left)
            return false;
        size_t n = length < PIECE ? length : PIECE;
        if (memcmp(piece, wanted, n) != 0)
            return false;
        from += n;
        *at += n;
    } while (length > PIECE);
    return true;
}

token_reader *work_reader(const struct work *work)
{
    return teco_is_wide(&work->session) == 1 ? teco_token_wide : teco_token;
}

/* EX writes the output, the buffer with its form feed, and what of INPUT isn't read. Of the output no more is compared than what came
   since it was compared before: a string adds to it, and an undo takes away. Of what isn't read no more is compared than was read when
   that was saved. */
bool work_has_edits(struct work *work)
{
    static const uint8_t FORM_FEED = 12;
    size_t output, text, place, at;
    if (teco_output(&work->session, 0, work->room, 0, &output) != 0 || teco_length(&work->session, &text) != 0
        || teco_place(&work->session, &place) != 0)
        return true;
    if (output < work->verified)
        work->verified = output;
    bool has_feed = teco_form_feed(&work->session) == 1;
    if (output + text + has_feed + work->size - place != (work->is_saved ? work->saved.count : work->size))
        return true;
    at = work->verified;
    if (!is_of_base(work, teco_output, work->verified, &at))
        return true;
    work->verified = at;
    if (!is_of_base(work, teco_text, 0, &at) || (work->is_saved && has_feed && work->saved.at[at] != FORM_FEED))
        return true;
    at += has_feed;
    return work->is_saved && place < work->saved_place && !is_of_base(work, teco_input, place, &at);
}

void work_want(struct work *work)
{
    bool is_wanted = work_has_edits(work);
    journal_want(&work->journal, is_wanted);
    keep_want(&work->keeper, is_wanted);
}

bool work_is_over_input(const struct work *work)
{
    char *input = realpath(work->options->input, NULL), *output = realpath(work->output, NULL);
    bool is = input != NULL && output != NULL && strcmp(input, output) == 0;
    free(input);
    free(output);
    return is;
}

/* Whether the output goes over a file that this session has neither read nor written, as it is now, and of which a person wasn't told. */
static bool would_lose(struct work *work)
{
    struct stat there;
    if (!file_is_replaced(work->output, &there) || file_is_same(&there, &work->known))
        return false;
    work->known = there;
    return true;
}

static void note_written(struct work *work, const struct content *content)
{
    size_t n = content->session == NULL ? content->bytes->count : 0;
    if (content->session != NULL)
        (void)teco_output(content->session, 0, work->room, 0, &n);
    (void)file_is_replaced(work->output, &work->known);
    (void)snprintf(work->wrote, sizeof work->wrote, "wrote %s, %zu byte%s", work->output, n, n == 1 ? "" : "s");
}

void work_tell(const struct work *work)
{
    if (work->keeper.note[0] != '\0')
        (void)fprintf(stderr, "%s\n", work->keeper.note);
    if (work->wrote[0] != '\0')
        (void)fprintf(stderr, "%s\n", work->wrote);
}

/* Writes the output, which Ctrl-C breaks off where a pipe is waited for. Tells in errno why it can't. */
static enum fate write_file(struct work *work, const struct content *content)
{
    (void)teco_stop(&work->asks, 0);
    tty_watch(&work->asks);
    errno = 0;
    enum fate fate = file_write(work->output, content);
    int reason = errno;
    tty_unwatch();
    if (fate == EXIT)
        note_written(work, content);
    errno = fate == NO_MEMORY ? ENOMEM : reason;
    return fate;
}

enum fate work_write_content(struct work *work, const struct content *content, const char *again, char *why, size_t size)
{
    enum fate fate = would_lose(work) ? CHANGED_FILE : write_file(work, content);
    if (fate == CHANGED_FILE)
        (void)snprintf(why, size, "%s %s: %s replaces it.", work->output,
            work_is_over_input(work) && !work->is_new ? "has changed since it was read" : "is there already", again);
    else if (fate != EXIT)
        (void)snprintf(why, size, "cannot write %s: %s.", work->output, errno != 0 ? strerror(errno) : "the system gives no reason");
    return fate;
}

enum fate work_write(struct work *work, char *why, size_t size)
{
    struct content content = {.session = &work->session};
    enum fate fate = work_write_content(work, &content, "EX once more, or Return,", why, size);
    if (fate == EXIT)
        return EXIT;
    (void)work_undo(work, 1);
    work_want(work);
    return fate == CHANGED_FILE ? CHANGED_FILE : GOES_ON;
}

enum fate work_write_to(struct work *work, const uint8_t *name, size_t n, char *why, size_t size)
{
    if (n > 0) {
        char *output = malloc(n + 1);
        if (output == NULL)
            return NO_MEMORY;
        memcpy(output, name, n);
        output[n] = '\0';
        free(work->output);
        work->output = output;
    }
    if (work_redo(work, 1) != 0 || teco_done(&work->session) != 1)
        return CHANGED_FILE;
    return work_write(work, why, size);
}
