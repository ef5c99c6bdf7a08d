/*
 * Refuses each growth of a session in turn, and compares what is left with a session in ample memory that runs as many steps. Each undo,
 * redo and rewind, and each call that looks, is made where every growth is refused, and asks for none. A run lacks a place only where a
 * growth is refused in its string. Then each growth of a stopper. It wants allocator.c before the C library's allocator. Prints what
 * differs, and ends with status 1 where something does.
 */
#include "teco.h"
#include <dlfcn.h>
#include <limits.h>
#include <stdio.h>
#include <string.h>

static void (*begin)(long from, long to);
static long (*end)(void);
static int failed;

static const char *const strings[] = {
    "Y", "Iaaaa\0330J<Saa\033;%A\033>", "@^UA/^UAy\033Ix\033/MA", "[A[Q]B]C", "3UQ10<QQ=QQ+1UQ>", "JFSa\033a long text that takes a place of its own\033",
    "PHT", "<I0123456789abcdef0123456789abcdef\033>", "9J",
};

enum { STRINGS = sizeof strings / sizeof strings[0], NEVER = 100000 };

static void wrong(const char *what, long nth, int i)
{
    printf("growths: %s, where growth %ld is refused, at string %d\n", what, nth, i);
    failed = 1;
}

/* Runs string i for so many steps. What it types is not kept. */
static uint8_t run(struct teco *t, int i, uint64_t limit, struct teco_run *run)
{
    static uint8_t room[4096];
    *run = (struct teco_run){.limit = limit, .room = room, .room_size = sizeof room, .frames = TECO_NO_FRAMES};
    return teco_run(t, (const uint8_t *)strings[i], strlen(strings[i]), run);
}

/* Whether two sessions show the same. */
static int same(struct teco *a, struct teco *b)
{
    static uint8_t in_a[65536], in_b[65536];
    size_t n[8];
    int32_t number[2];
    int is_same = 1;
    teco_text(a, 0, in_a, sizeof in_a, &n[0]);
    teco_text(b, 0, in_b, sizeof in_b, &n[1]);
    is_same &= n[0] == n[1] && memcmp(in_a, in_b, n[0]) == 0;
    teco_output(a, 0, in_a, sizeof in_a, &n[0]);
    teco_output(b, 0, in_b, sizeof in_b, &n[1]);
    is_same &= n[0] == n[1] && memcmp(in_a, in_b, n[0]) == 0;
    teco_register(a, 'A', in_a, sizeof in_a, &n[0]);
    teco_register(b, 'A', in_b, sizeof in_b, &n[1]);
    is_same &= n[0] == n[1] && memcmp(in_a, in_b, n[0]) == 0;
    teco_number(a, 'Q', &number[0]);
    teco_number(b, 'Q', &number[1]);
    teco_pointer(a, &n[2]);
    teco_pointer(b, &n[3]);
    teco_place(a, &n[4]);
    teco_place(b, &n[5]);
    teco_pushed(a, &n[6]);
    teco_pushed(b, &n[7]);
    return is_same && number[0] == number[1] && n[2] == n[3] && n[4] == n[5] && n[6] == n[7];
}

/* Calls that may ask for nothing, where all is refused. They come back to where they began. */
static void turn(struct teco *t, long nth, int i)
{
    uint8_t room[64];
    size_t n;
    struct teco_token token;
    begin(1, LONG_MAX);
    int undone = teco_undo(t), redone = undone == 0 ? teco_redo(t) : 0;
    teco_token((const uint8_t *)strings[i], strlen(strings[i]), 0, &token);
    teco_token_wide((const uint8_t *)strings[i], strlen(strings[i]), 0, &token);
    (void)teco_is_wide(t);
    teco_lines(t, 0, SIZE_MAX, &n);
    teco_text(t, 0, room, sizeof room, &n);
    teco_string(t, 0, room, sizeof room, &n);
    teco_output(t, 0, room, sizeof room, &n);
    teco_input(t, 0, room, sizeof room, &n);
    if (end() != 0 || redone != 0 || (undone != 0 && undone != TECO_NTU))
        wrong("an undo, a redo or a look asks for memory", nth, i);
}

/* One session whose growth of this number is refused, beside its twin. Tells how many growths there were. */
static long try(long nth)
{
    struct teco t = {0}, twin = {0};
    long counted = 0;
    teco_open(&twin, (const uint8_t *)"one\ftwo", 7, 0, 5);
    begin(nth, nth);
    int opened = teco_open(&t, (const uint8_t *)"one\ftwo", 7, 0, 5);
    counted += end();
    if (opened != 0 && (opened != TECO_MEM || t.at != NULL))
        wrong("a refused open is told or left otherwise", nth, -1);
    for (int i = 0; opened == 0 && i < STRINGS; i++) {
        struct teco_run tried, as_many;
        long one = nth - counted;
        begin(one, one);
        int code = run(&t, i, 40, &tried);
        long asked = end();
        counted += asked;
        int lacks = (tried.at == TECO_NOWHERE) != (code == 0);
        if (lacks && (tried.at != TECO_NOWHERE || one < 1 || one > asked))
            wrong("where it stopped is not told", nth, i);
        if (code == TECO_NOT_BEGUN && tried.steps != 0)
            wrong("a string that was not begun took steps", nth, i);
        if (code != TECO_NOT_BEGUN)
            run(&twin, i, tried.steps, &as_many);
        if (!same(&t, &twin))
            wrong("the state is not that of as many steps", nth, i);
        turn(&t, nth, i);
        if (!same(&t, &twin))
            wrong("an undo and a redo lead elsewhere", nth, i);
    }
    begin(1, LONG_MAX);
    int rewound = teco_rewind(&t, 0), forgot = teco_undo(&t) == TECO_CLOSED ? 0 : teco_forget(&t);
    if (end() != 0 || forgot != 0 || (opened == 0 ? rewound != 0 && rewound != TECO_NTU : rewound != TECO_CLOSED))
        wrong("a rewind or a forget asks for memory", nth, STRINGS);
    teco_close(&t);
    teco_close(&twin);
    return counted;
}

/* A stopper whose opening is refused this growth. Tells how many growths there were. */
static long try_stopper(long nth)
{
    struct teco_stopper here = {0}, there = {0};
    begin(nth, nth);
    int opened = teco_stopper_open(&here, &there);
    long counted = end();
    if (opened == 0 ? !here.at || !there.at : opened != TECO_MEM || here.at || there.at)
        wrong("a refused stopper is told or left otherwise", nth, -1);
    begin(1, LONG_MAX);
    int asked = teco_stop(&here, 1);
    if (end() != 0 || asked != (opened == 0 ? 0 : TECO_CLOSED))
        wrong("a stop asks for memory", nth, -1);
    teco_stopper_close(&here);
    teco_stopper_close(&there);
    return opened == 0 ? 0 : counted;
}

/* The file of a session, of which this growth is refused: then nothing is told, and a handle stays as it was. Tells how many growths there
   were. */
static long try_file(long nth)
{
    static uint8_t file[1024];
    struct teco t = {0};
    struct teco_line line = {.kind = TECO_RAN, .steps = 1, .room = file, .room_size = sizeof file}, before;
    struct teco_resumed resumed = {.good = 7};
    begin(nth, nth);
    int codes[3] = {teco_head((const uint8_t *)"one", 3, 0, 0, &line)};
    size_t count = line.made;
    before = line;
    line.room += count;
    codes[1] = teco_record((const uint8_t *)"Y", 1, &line);
    if (codes[1] != 0 && (line.made != 0 || memcmp(line.check, before.check, sizeof line.check) != 0))
        wrong("a refused line is told", nth, -1);
    count += line.made;
    codes[2] = teco_resume(&t, file, count, &resumed);
    long counted = end();
    if (codes[2] == 0 ? resumed.good != count || t.at == NULL : resumed.good != 7 || t.at != NULL)
        wrong("a refused session is told or left otherwise", nth, -1);
    for (int i = 0; i < 3; i++) {
        if (codes[i] != 0 && codes[i] != TECO_MEM && !(i == 2 && codes[0] != 0))
            wrong("a refusal is told otherwise", nth, i);
    }
    teco_close(&t);
    return codes[0] == 0 && codes[1] == 0 && codes[2] == 0 ? 0 : counted;
}

/* A source, of which this growth is refused: then nothing is told and copied. Tells how many growths there were, or 0 where none was refused. */
static long try_source(long nth)
{
    static const char SOURCE[] = "Iab  cd$ !! a text\n  <FSa$b$;>EX$$\n";
    static uint8_t room[64];
    struct teco_source told = {9, 9, 9};
    room[0] = '.';
    begin(nth, nth);
    int code = teco_source((const uint8_t *)SOURCE, sizeof SOURCE - 1, room, sizeof room, &told);
    long counted = end();
    if (code == 0 ? told.made != 21 : code != TECO_MEM || told.made != 0 || told.line != 0 || told.column != 0 || room[0] != '.')
        wrong("a refused source is told", nth, code);
    return code == 0 ? 0 : counted;
}

int main(void)
{
    *(void **)&begin = dlsym(RTLD_DEFAULT, "growths_begin");
    *(void **)&end = dlsym(RTLD_DEFAULT, "growths_end");
    if (!begin || !end) {
        puts("growths: allocator.c is not before the C library's allocator");
        return 2;
    }
    long nth = 1;
    while (nth < NEVER && try(nth) >= nth)
        nth++;
    printf("growths: %ld refused in turn: %s\n", nth - 1, failed ? "differs" : "ok");
    failed |= nth < 20;
    long refused = 0;
    while (refused < NEVER && try_stopper(refused + 1) > 0)
        refused++;
    printf("growths: %ld refused in turn, of a stopper: %s\n", refused, failed ? "differs" : "ok");
    failed |= refused < 3;
    refused = 0;
    while (refused < NEVER && try_file(refused + 1) > 0)
        refused++;
    printf("growths: %ld refused in turn, of a session's file: %s\n", refused, failed ? "differs" : "ok");
    failed |= refused < 9;
    refused = 0;
    while (refused < NEVER && try_source(refused + 1) > 0)
        refused++;
    printf("growths: %ld refused in turn, of a source: %s\n", refused, failed ? "differs" : "ok");
    failed |= refused < 2;
    return failed;
}
