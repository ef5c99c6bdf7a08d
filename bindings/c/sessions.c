/*
 * Makes sessions at random, with undos, redos, rewinds, strings that are dropped, limits, breaks by a stopper, rooms that are too small, and
 * growths that are refused; keeps the file of each, and opens it again by that: what is told then is the same, before and after each undo and
 * redo. It wants allocator.c before the C library's allocator. Prints what differs, and ends with status 1 where something does.
 *
 *   sessions COUNT SEED          so many sessions, some of which are gone on with from their files
 *   sessions fronts COUNT SEED   so many files: each front of one is read as the whole lines of it
 *   sessions bits COUNT SEED     so many files, with each bit turned: no more is read than the lines before
 */
#define _POSIX_C_SOURCE 200809L
#include "teco.h"
#include <dlfcn.h>
#include <limits.h>
#include <pthread.h>
#include <stdio.h>
#include <stdlib.h>
#include <string.h>
#include <time.h>

static void (*begin)(long from, long to);
static long (*end)(void);
static int failed;
static uint64_t chance;

static const char *const parts[] = {
    "Y", "J", "ZJ", "2C", "R", "L", "-L", "0L", "D", "-2D", "K", "HK", "HT", "V", "5=", "Ione\33", "I\n\33", "\tq\33", "@I/yz/", "10I", "-12\\", "2<Ix\33>", "Sone\33",
    ":Stwo\33", "-So\33", "FSo\33xy\33", "<FSe\33E\33;>", "<So\33;D>", "3<", ">", "1;", ";", "1\"E", "0\"N", "|", "'", "Oa\33", "!a!", "QA", "1UA", "%B", "MA", "MB",
    "@^UA/J Ix\33/", "@^UB/2\"E3='%C/", "\25Chello\33", "XA", "HXC", "[A", "]B", "GA", "GC", "A", "P", "PW", "Nt\33", "0^X", "^Ahi^A", "9J", "<%A>", "<Iabc\33>", "EX",
    "(", ",", "1", "W", "?", "^E=", "^N=", "7^T",
};

enum { PARTS = sizeof parts / sizeof parts[0], MOST_TEXT = 400, MOST_RECORDS = 64, MOST_FILE = 1 << 20, CHECK = 16 };

/* The session as it was lived, its file, where each line ends, and what was told after each. */
struct life {
    struct teco t;
    struct teco_stopper asked, asks;
    uint8_t *file;
    size_t size, head, records, ends[MOST_RECORDS + 1];
    uint64_t told[MOST_RECORDS + 1];
    struct teco_line line;
    unsigned long seed;
};

static struct {
    long sessions, again, requests, undone, redone, rewound, forgot, not_begun, refused, broken, codes[256], records, bytes, fronts, bits;
} counts;

static void wrong(const struct life *life, const char *what, size_t at)
{
    printf("sessions: %s, at %zu of seed %lu\n", what, at, life->seed);
    failed = 1;
}

static uint64_t roll(uint64_t below)
{
    chance ^= chance << 13;
    chance ^= chance >> 7;
    chance ^= chance << 17;
    return chance % below;
}

static void add(uint64_t *sum, const void *bytes, size_t n)
{
    for (size_t i = 0; i < n; i++)
        *sum = (*sum ^ ((const uint8_t *)bytes)[i]) * 1099511628211u;
}

typedef uint8_t look(const struct teco *t, size_t from, uint8_t *room, size_t size, size_t *length);

static uint8_t room[1 << 20];

static void add_look(uint64_t *sum, const struct teco *t, look *call)
{
    size_t n = 0;
    (void)call(t, 0, room, sizeof room, &n);
    add(sum, &n, sizeof n);
    add(sum, room, n < sizeof room ? n : sizeof room);
}

/* A sum of all that is told of the state. */
static uint64_t state_of(const struct teco *t)
{
    uint64_t sum = 14695981039346656037u;
    size_t n[3] = {0};
    add_look(&sum, t, teco_text);
    add_look(&sum, t, teco_output);
    for (const char *name = "ABCDEFGHIJKLMNOPQRSTUVWXYZ0123456789"; *name != '\0'; name++) {
        int32_t number = 0;
        (void)teco_number(t, (uint8_t)*name, &number);
        (void)teco_register(t, (uint8_t)*name, room, sizeof room, &n[0]);
        add(&sum, &number, sizeof number);
        add(&sum, &n[0], sizeof n[0]);
        add(&sum, room, n[0]);
    }
    uint8_t found = teco_search(t, room, sizeof room, &n[0]);
    uint8_t flags[6] = {teco_done(t), teco_found(t), teco_form_feed(t), teco_either_case(t), teco_is_wide(t), found};
    add(&sum, room, n[0]);
    (void)teco_pointer(t, &n[0]);
    (void)teco_pushed(t, &n[1]);
    (void)teco_place(t, &n[2]);
    add(&sum, n, sizeof n);
    add(&sum, flags, sizeof flags);
    return sum;
}

/* The same with the strings, their steps, and how many of them are undone. */
static uint64_t history_of(const struct teco *t)
{
    uint64_t sum = state_of(t), steps;
    size_t count = 0, cursor = 0, n;
    (void)teco_strings(t, &count);
    (void)teco_cursor(t, &cursor);
    add(&sum, &count, sizeof count);
    add(&sum, &cursor, sizeof cursor);
    for (size_t i = 0; i < count; i++) {
        (void)teco_string(t, i, room, sizeof room, &n);
        (void)teco_steps(t, i, &steps);
        add(&sum, &n, sizeof n);
        add(&sum, room, n);
        add(&sum, &steps, sizeof steps);
    }
    return sum;
}

/* Puts the line of a request into the file, at once or after its growths were refused: then nothing is told. */
static void keep(struct life *life, uint8_t kind, uint64_t steps, const char *text, size_t n)
{
    struct teco_line *line = &life->line;
    line->kind = kind;
    line->steps = steps;
    line->room = life->file + life->size;
    line->room_size = MOST_FILE - life->size;
    if (roll(8) == 0) {
        struct teco_line before = *line;
        begin(1, LONG_MAX);
        uint8_t code = teco_record((const uint8_t *)text, n, line);
        (void)end();
        if (code != TECO_MEM || memcmp(before.check, line->check, CHECK) != 0 || line->made != 0)
            wrong(life, "a line is made without memory", life->records);
    }
    if (teco_record((const uint8_t *)text, n, line) != 0 || line->made > line->room_size)
        wrong(life, "a line is refused", life->records);
    life->size += line->made;
    life->ends[++life->records] = life->size;
    life->told[life->records] = history_of(&life->t);
    counts.records++;
}

/* Who asks a run to stop, and when. */
struct asking {
    const struct teco_stopper *asks;
    struct timespec soon;
};

static void *ask(void *to)
{
    struct asking *asking = to;
    (void)nanosleep(&asking->soon, NULL);
    (void)teco_stop(asking->asks, 1);
    return NULL;
}

/* Runs a string, which another thread breaks off if so said. */
static uint8_t run_asked(struct life *life, const char *text, size_t n, struct teco_run *run, int is_broken)
{
    pthread_t thread;
    struct asking asking = {.asks = &life->asks, .soon = {.tv_nsec = (long)roll(200000)}};
    int has_thread = is_broken && pthread_create(&thread, NULL, ask, &asking) == 0;
    uint8_t code = teco_run(&life->t, (const uint8_t *)text, n, run);
    if (has_thread)
        (void)pthread_join(thread, NULL);
    counts.broken += code == TECO_LIM && run->steps < run->limit;
    (void)teco_stop(&life->asks, 0);
    return code;
}

static size_t make_text(char *text)
{
    size_t n = 0;
    for (uint64_t left = 1 + roll(6); left > 0; left--) {
        const char *part = parts[roll(PARTS)];
        memcpy(text + n, part, strlen(part));
        n += strlen(part);
    }
    return n;
}

/* A string: under a limit, with growths that are refused from one on, in a small room, broken off, or as it is. */
static void run_one(struct life *life)
{
    char text[MOST_TEXT];
    size_t n = make_text(text);
    static uint8_t typed[1 << 16];
    uint64_t kind = roll(12);
    struct teco_run run = {.limit = kind < 3 ? roll(60) : 2000, .stopper = life->asked, .room = typed, .room_size = kind == 3 ? roll(4) : sizeof typed,
        .frames = TECO_NO_FRAMES};
    uint8_t code;
    if (kind == 4 || kind == 5) {
        begin(1 + (long)roll(6), LONG_MAX);
        code = run_asked(life, text, n, &run, 0);
        counts.refused += end() > 0;
    } else if (kind == 6) {
        memcpy(text + n, "<%D>", 4);
        run.limit = 100000;
        code = run_asked(life, text, n += 4, &run, 1);
    } else {
        code = run_asked(life, text, n, &run, 0);
    }
    counts.codes[code]++;
    counts.not_begun += code == TECO_NOT_BEGUN;
    if (code != TECO_NOT_BEGUN && code != TECO_END)
        keep(life, TECO_RAN, run.steps, text, n);
}

/* Keeps what a call did, if it wasn't refused. */
static void keep_if(struct life *life, uint8_t code, uint8_t kind, uint64_t steps, long *count)
{
    if (code != 0)
        return;
    (*count)++;
    keep(life, kind, steps, "", 0);
}

static void request(struct life *life)
{
    uint64_t steps = roll(8) == 0 ? UINT64_MAX : roll(12);
    counts.requests++;
    switch (roll(12)) {
    case 0: case 1: keep_if(life, teco_undo(&life->t), TECO_UNDID, 0, &counts.undone); break;
    case 2: case 3: keep_if(life, teco_redo(&life->t), TECO_REDID, 0, &counts.redone); break;
    case 4: keep_if(life, teco_rewind(&life->t, steps), TECO_REWOUND, steps, &counts.rewound); break;
    case 5: keep_if(life, roll(4) == 0 ? teco_forget(&life->t) : 1, TECO_FORGOT, 0, &counts.forgot); break;
    default: run_one(life);
    }
}

/* Begins a session over a text of some pages, in one language or the other, with the head of its file. */
static void begin_life(struct life *life, unsigned long seed)
{
    static const char *const inputs[] = {"", "one two\nthree e\n\ftwo pages\none\n\fthree\n", "no end", "a\n\f\fb\n"};
    const char *input = inputs[roll(4)];
    size_t n = strlen(input), lines = roll(3) == 0 ? 1 + roll(2) : 0, depth = roll(3) == 0 ? 1 + roll(4) : 0;
    life->seed = seed;
    life->size = life->records = 0;
    life->line = (struct teco_line){.room = life->file, .room_size = MOST_FILE};
    uint8_t is_wide = roll(2) == 0;
    uint8_t (*opens)(struct teco *, const uint8_t *, size_t, size_t, size_t) = is_wide ? teco_open_wide : teco_open;
    uint8_t (*heads)(const uint8_t *, size_t, size_t, size_t, struct teco_line *) = is_wide ? teco_head_wide : teco_head;
    if (opens(&life->t, (const uint8_t *)input, n, lines, depth) != 0 || teco_is_wide(&life->t) != is_wide
        || heads((const uint8_t *)input, n, lines, depth, &life->line) != 0)
        wrong(life, "a session is refused", 0);
    life->head = life->ends[0] = life->size = life->line.made;
    life->told[0] = history_of(&life->t);
    counts.sessions++;
}

/* Whether two sessions tell the same, and after each undo and redo. */
static int are_alike(struct teco *one, struct teco *other)
{
    int alike = history_of(one) == history_of(other);
    uint8_t code, same;
    for (int is_forth = 0; is_forth < 2; is_forth++) {
        do {
            code = is_forth ? teco_redo(one) : teco_undo(one);
            same = is_forth ? teco_redo(other) : teco_undo(other);
            alike &= code == same && state_of(one) == state_of(other);
        } while (code == 0 && same == 0);
    }
    return alike;
}

/* Opens the session again by its file, at once or after a growth was refused: then the handle stays closed. */
static void open_again(const struct life *life, struct teco *again)
{
    struct teco_resumed told = {.good = 7};
    if (roll(4) == 0) {
        begin(1 + (long)roll(40), LONG_MAX);
        uint8_t code = teco_resume(again, life->file, life->size, &told);
        (void)end();
        if (code == 0 ? again->at == NULL : code != TECO_MEM || again->at != NULL || told.good != 7)
            wrong(life, "a refused session is told or left otherwise", life->records);
    }
    uint8_t code = teco_resume(again, life->file, life->size, &told);
    if (code != 0 || told.ending != TECO_WHOLE || told.good != life->size || told.records != life->records
        || memcmp(told.check, life->line.check, CHECK) != 0)
        wrong(life, "the file is read otherwise", life->records);
    counts.again++;
}

/* Undoes what stands beyond the cursor of another session with the same strings. */
static void go_back_to(struct teco *t, const struct teco *other)
{
    size_t cursor = 0, wanted = 0;
    (void)teco_cursor(t, &cursor);
    (void)teco_cursor(other, &wanted);
    for (; cursor > wanted; cursor--)
        (void)teco_undo(t);
}

/* A session of requests. What its file tells is the same, at its end and at two moments before; then one of the two is gone on with. */
static void live(struct life *life, unsigned long seed)
{
    begin_life(life, seed);
    for (int part = 0; part < 3; part++) {
        for (uint64_t left = roll(MOST_RECORDS / 3); left > 0; left--)
            request(life);
        struct teco again = {0}, other = {0};
        open_again(life, &again);
        open_again(life, &other); /* whose undone strings stay undone */
        if (history_of(&life->t) != history_of(&other) || !are_alike(&life->t, &again))
            wrong(life, "the session is another one", life->records);
        go_back_to(&life->t, &other);
        teco_close(&again);
        again = roll(2) == 0 ? life->t : other;
        teco_close(again.at == other.at ? &life->t : &other);
        life->t = again;
    }
    counts.bytes += (long)life->size;
    teco_close(&life->t);
}

/* A session of some requests, whose file is no longer than so many bytes. */
static void make_file(struct life *life, unsigned long seed, size_t most)
{
    begin_life(life, seed);
    while (life->records < 20 && life->size < most - 100)
        request(life);
    teco_close(&life->t);
    counts.bytes += (long)life->size;
}

/* Reads bytes, and sees that so many records are read, up to the end of their last line. */
static void read_records(const struct life *life, const uint8_t *bytes, size_t n, size_t records, const char *what, size_t at)
{
    struct teco t = {0};
    struct teco_resumed told = {0};
    uint8_t code = teco_resume(&t, bytes, n, &told);
    if (code != 0 || told.records != records || told.good != life->ends[records] || (told.ending == TECO_WHOLE) != (told.good == n)
        || history_of(&t) != life->told[records])
        wrong(life, what, at);
    teco_close(&t);
}

/* Reads bytes whose head isn't whole, or was changed. */
static void read_no_head(const struct life *life, const uint8_t *bytes, size_t n, int is_torn, size_t at)
{
    struct teco t = {0};
    struct teco_resumed told = {.good = 7};
    uint8_t code = teco_resume(&t, bytes, n, &told);
    if ((code != TECO_TORN_HEAD && (is_torn || code != TECO_CHANGED_HEAD)) || t.at != NULL || told.good != 7)
        wrong(life, "a head is read", at);
}

/* Each front of a file: its whole lines are read, if its head is whole. */
static void read_fronts(struct life *life)
{
    size_t records = 0;
    for (size_t n = 0; n <= life->size; n++) {
        records += records < life->records && life->ends[records + 1] == n;
        if (n < life->head)
            read_no_head(life, life->file, n, 1, n);
        else
            read_records(life, life->file, n, records, "a front is read otherwise", n);
        counts.fronts++;
    }
}

/* Each bit of a file is turned: the lines before are read, and no more. */
static void turn_bits(struct life *life)
{
    size_t records = 0;
    for (size_t at = 0; at < life->size; at++) {
        records += at >= life->head && life->ends[records + 1] == at;
        for (int bit = 0; bit < 8; bit++) {
            life->file[at] ^= (uint8_t)(1 << bit);
            if (at < life->head)
                read_no_head(life, life->file, life->size, 0, at);
            else
                read_records(life, life->file, life->size, records, "more or less is read before a bit that was turned", at);
            life->file[at] ^= (uint8_t)(1 << bit);
            counts.bits++;
        }
    }
}

static void tell(void)
{
    printf("%ld sessions, opened again %ld times; %ld requests, %ld lines, %ld bytes\n", counts.sessions, counts.again, counts.requests, counts.records, counts.bytes);
    printf("%ld undone, %ld redone, %ld rewound, %ld forgotten; by LIM %ld, of which broken off %ld; by MEM %ld, and not begun %ld; by TTY %ld; after an exit %ld\n",
        counts.undone, counts.redone, counts.rewound, counts.forgot, counts.codes[TECO_LIM], counts.broken, counts.codes[TECO_MEM], counts.not_begun,
        counts.codes[TECO_TTY], counts.codes[TECO_END]);
    if (counts.fronts + counts.bits > 0)
        printf("%ld fronts, %ld bits turned\n", counts.fronts, counts.bits);
    puts(failed ? "sessions: differs" : "sessions: ok");
}

int main(int count, char **words)
{
    static struct life life;
    const char *kind = count > 3 ? words[1] : "";
    *(void **)&begin = dlsym(RTLD_DEFAULT, "growths_begin");
    *(void **)&end = dlsym(RTLD_DEFAULT, "growths_end");
    life.file = malloc(MOST_FILE);
    if (count < 3 || !begin || !end || life.file == NULL || teco_stopper_open(&life.asked, &life.asks) != 0)
        return 2;
    unsigned long many = strtoul(words[count - 2], NULL, 10), seed = strtoul(words[count - 1], NULL, 10);
    for (unsigned long i = 0; i < many && !failed; i++) {
        chance = 0x9E3779B97F4A7C15u * (seed + i + 1);
        if (*kind == '\0')
            live(&life, seed + i);
        else
            make_file(&life, seed + i, 600);
        if (strcmp(kind, "fronts") == 0)
            read_fronts(&life);
        else if (strcmp(kind, "bits") == 0)
            turn_bits(&life);
    }
    tell();
    teco_stopper_close(&life.asked);
    teco_stopper_close(&life.asks);
    free(life.file);
    return failed || many == 0;
}
