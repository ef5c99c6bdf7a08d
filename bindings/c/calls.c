/*
 * Each call once on its way to success, each of its refusals, and each on a closed handle. Each call but an open and a close is also
 * made at a handle that can't be written. Expected values are taken from teco.h and the manual. Prints the lines that fail, and ends
 * with status 1 where there are any.
 */
#include "teco.h"
#include <stdio.h>
#include <string.h>
#include <sys/mman.h>

static int failed;

#define HOLDS(fact) \
    do { \
        if (!(fact)) { \
            printf("calls.c:%d: %s\n", __LINE__, #fact); \
            failed = 1; \
        } \
    } while (0)

enum { LIMIT = 1000, CALLED = 3 };

static uint8_t room[64];
static struct teco_call called[CALLED];
static size_t n, at, inner, calls;
static uint64_t steps;

static const uint8_t *bytes(const char *text)
{
    return (const uint8_t *)text;
}

/* Runs a string, and gives what the run told. What the run was given is the same after. */
static uint8_t run_as(struct teco *t, const char *text, struct teco_run given)
{
    struct teco_run run = given;
    run.made = run.steps = run.at = run.inner = run.calls = 1;
    memset(called, '.', sizeof called);
    uint8_t code = teco_run(t, bytes(text), strlen(text), &run);
    HOLDS(run.limit == given.limit && run.stopper.at == given.stopper.at && run.room == given.room && run.room_size == given.room_size);
    HOLDS(run.frames == given.frames && run.frames_size == given.frames_size && (run.inner == run.at || run.calls > 0));
    n = run.made;
    steps = run.steps;
    at = run.at;
    inner = run.inner;
    calls = run.calls;
    return code;
}

static uint8_t until(struct teco *t, const char *text, size_t size, const struct teco_stopper *stopper)
{
    struct teco_run run = {.limit = LIMIT, .stopper = *stopper, .room = room, .room_size = size, .frames = TECO_NO_FRAMES};
    return run_as(t, text, run);
}

static uint8_t run(struct teco *t, const char *text, size_t size)
{
    return until(t, text, size, &(struct teco_stopper){0});
}

static uint8_t run_for(struct teco *t, const char *text, uint64_t limit)
{
    struct teco_run run = {.limit = limit, .room = TECO_NO_ROOM, .frames = TECO_NO_FRAMES};
    return run_as(t, text, run);
}

static uint8_t frames(struct teco *t, const char *text, size_t most, const struct teco_stopper *stopper)
{
    struct teco_run run = {
        .limit = LIMIT, .stopper = *stopper, .room = room, .room_size = sizeof room, .frames = called, .frames_size = most};
    return run_as(t, text, run);
}

/* Whether this call is told there; and whether nothing is. */
static int is_called(int i, size_t place, char name)
{
    return called[i].at == place && called[i].name == (uint8_t)name;
}

static int is_untold(int i)
{
    return is_called(i, (size_t)0x2e2e2e2e2e2e2e2e, '.');
}

/* Whether a string stopped there, inside of so many macros; and whether it stopped there in the innermost text. */
static int stopped(size_t place, size_t macros)
{
    return at == place && calls == macros;
}

static int stopped_inside(size_t place, size_t macros)
{
    return inner == place && calls == macros;
}

/* Whether the first bytes of the room, as many as were told, are these. */
static int has(const char *text)
{
    return n == strlen(text) && memcmp(room, text, n) == 0;
}

static void opens(void)
{
    struct teco t = {0};
    HOLDS(teco_open(&t, bytes(""), 0, 0, TECO_DEPTH_LIMIT + 1) == TECO_DEEP && t.at == NULL);
    size_t too_many = (size_t)TECO_INPUT_LIMIT + 1;
    void *large = mmap(NULL, too_many, PROT_READ, MAP_PRIVATE | MAP_ANONYMOUS | MAP_NORESERVE, -1, 0);
    HOLDS(large != MAP_FAILED && teco_open(&t, large, too_many, 0, 0) == TECO_LARGE && t.at == NULL);
    HOLDS(teco_open_wide(&t, large, too_many, 0, TECO_DEPTH_LIMIT + 1) == TECO_LARGE && t.at == NULL);
    munmap(large, too_many);
    HOLDS(teco_open(&t, bytes("old"), 3, 0, 2) == 0 && t.at != NULL);
    HOLDS(run(&t, "Y", 0) == 0);
    HOLDS(teco_open(&t, bytes(""), 0, 0, TECO_DEPTH_LIMIT + 1) == TECO_DEEP);
    HOLDS(teco_text(&t, 0, room, 64, &n) == 0 && has("old"));
    HOLDS(teco_open(&t, bytes("new"), 3, 0, 0) == 0);
    HOLDS(teco_length(&t, &n) == 0 && n == 0);
    HOLDS(run(&t, "Y", 0) == 0 && teco_text(&t, 0, room, 64, &n) == 0 && has("new"));
    teco_close(&t);
    HOLDS(t.at == NULL);
    teco_close(&t);
    HOLDS(t.at == NULL);
}

/* Pages that end after so many lines, LF, VT or FF; of 0 lines no line ends one. */
static void pages(void)
{
    static const char INPUT[] = "a\nb\vc\fd\ne";
    struct teco t = {0};
    HOLDS(teco_open(&t, bytes(INPUT), sizeof INPUT - 1, 2, 0) == 0 && run(&t, "Y", 0) == 0);
    HOLDS(teco_text(&t, 0, room, 64, &n) == 0 && has("a\nb\v") && teco_form_feed(&t) == 0 && teco_place(&t, &n) == 0 && n == 4);
    HOLDS(run(&t, "P", 0) == 0 && teco_text(&t, 0, room, 64, &n) == 0 && has("c") && teco_form_feed(&t) == 1);
    HOLDS(run(&t, "P", 0) == 0 && teco_text(&t, 0, room, 64, &n) == 0 && has("d\ne") && run(&t, "EX", 0) == 0);
    HOLDS(teco_output(&t, 0, room, 64, &n) == 0 && has(INPUT));
    HOLDS(teco_open(&t, bytes(INPUT), sizeof INPUT - 1, SIZE_MAX, 0) == 0 && run(&t, "Y", 0) == 0);
    HOLDS(teco_text(&t, 0, room, 64, &n) == 0 && has("a\nb\vc"));
    teco_close(&t);
}

static void runs(void)
{
    struct teco t = {0};
    teco_open(&t, bytes(""), 0, 0, 0);
    HOLDS(run(&t, "Iab\0332+3=", 64) == 0 && has("5\r\n") && steps == 5);
    memset(room, '.', sizeof room);
    HOLDS(run(&t, "2=12=", 4) == TECO_TTY && has("2\r\n") && room[3] == '.' && steps == 3);
    HOLDS(run(&t, "", 0) == 0 && n == 0 && steps == 0);
    HOLDS(run(&t, "9J", 0) == 20 && steps == 2);
    HOLDS(run_for(&t, "<>", 10) == TECO_LIM && steps == 10);
    HOLDS(run_for(&t, "", 0) == 0 && steps == 0 && run_for(&t, " J", 0) == TECO_LIM && steps == 0 && stopped(1, 0));
    HOLDS(run(&t, "EX", 0) == 0 && teco_done(&t) == 1);
    HOLDS(run(&t, "J", 0) == TECO_END && steps == 0);
    HOLDS(teco_strings(&t, &n) == 0 && n == 8);
    HOLDS(teco_undo(&t) == 0 && teco_done(&t) == 0);
    teco_close(&t);
}

static void stops(void)
{
    struct teco t = {0};
    teco_open(&t, bytes(""), 0, 0, 0);
    HOLDS(run(&t, "Iab\0332+3=", 64) == 0 && has("5\r\n") && steps == 5 && stopped(TECO_NOWHERE, 0));
    HOLDS(run(&t, "ZJ 9J", 64) == 20 && has("") && stopped(4, 0));
    HOLDS(run(&t, "2=12=", 4) == TECO_TTY && has("2\r\n") && steps == 3 && stopped(4, 0));
    HOLDS(run(&t, "J\r\nIx", 0) == 24 && steps == 1 && stopped(3, 0));
    HOLDS(run(&t, "3<ZJ>8<C>", 0) == 20 && stopped(7, 0));
    HOLDS(run_for(&t, "J2J", 2) == TECO_LIM && steps == 2 && stopped(2, 0));
    HOLDS(run(&t, "@^UA/J9J/", 0) == 0 && stopped(TECO_NOWHERE, 0));
    HOLDS(run(&t, "ZJ MA", 0) == 20 && stopped(3, 1));
    HOLDS(run(&t, "@^UB/2UB J J MA/ 7UC MB ZJ", 0) == 20 && stopped(21, 2));
    HOLDS(run(&t, "@^UC/2=Ix/JMC", 64) == 24 && has("2\r\n") && stopped(11, 1));
    HOLDS(run(&t, "", 0) == 0 && stopped(TECO_NOWHERE, 0));
    HOLDS(teco_strings(&t, &n) == 0 && n == 11 && teco_undo(&t) == 0 && teco_rewind(&t, 0) == 0);
    HOLDS(run(&t, "EX", 0) == 0 && stopped(TECO_NOWHERE, 0) && teco_done(&t) == 1);
    HOLDS(run(&t, "9J", 0) == TECO_END && steps == 0 && stopped(TECO_NOWHERE, 0));
    teco_close(&t);
}

static void open_calls(void)
{
    struct teco t = {0};
    struct teco_stopper here = {0}, there = {0};
    teco_open(&t, bytes(""), 0, 0, 0);
    HOLDS(frames(&t, "2=J", 3, &here) == 0 && has("2\r\n") && steps == 3 && stopped_inside(TECO_NOWHERE, 0) && is_untold(0) && here.at == NULL);
    HOLDS(frames(&t, "J 9J", 3, &here) == 20 && stopped(3, 0) && is_untold(0));
    HOLDS(frames(&t, "@^UA/J9J/@^U7/ MA/J J M7ZJ", 3, &here) == 20 && stopped_inside(2, 2) && stopped(22, 2));
    HOLDS(is_called(0, 1, 'A') && is_called(1, 22, '7') && is_untold(2));
    HOLDS(frames(&t, "J Ma", 0, &here) == 20 && stopped_inside(2, 1) && is_untold(0));
    HOLDS(frames(&t, "M7", 1, &here) == 20 && stopped_inside(2, 2) && is_called(0, 1, 'A') && is_untold(1));
    HOLDS(teco_stopper_open(&here, &there) == 0 && teco_stop(&there, 1) == 0);
    HOLDS(frames(&t, " M7", 3, &here) == TECO_LIM && steps == 0 && stopped(1, 0) && is_untold(0) && teco_stop(&there, 0) == 0);
    HOLDS(frames(&t, " M7", 3, &here) == 20 && stopped_inside(2, 2) && is_called(1, 1, '7'));
    HOLDS(teco_strings(&t, &n) == 0 && n == 7 && teco_undo(&t) == 0);
    HOLDS(frames(&t, "EX", 3, &here) == 0 && frames(&t, "9J", 3, &here) == TECO_END && steps == 0 && stopped_inside(TECO_NOWHERE, 0) && is_untold(0));
    teco_stopper_close(&here);
    teco_stopper_close(&there);
    teco_close(&t);
}

static void breaks(void)
{
    struct teco t = {0};
    struct teco_stopper here = {0}, there = {0};
    teco_open(&t, bytes(""), 0, 0, 0);
    HOLDS(teco_stop(&here, 1) == TECO_CLOSED && here.at == NULL);
    HOLDS(until(&t, "1=9J", 64, &here) == 20 && has("1\r\n") && steps == 4 && stopped(3, 0) && here.at == NULL);
    HOLDS(teco_stopper_open(&here, &there) == 0 && here.at != NULL && there.at != NULL);
    HOLDS(until(&t, "2=@^UA/9J/MA", 64, &here) == 20 && has("2\r\n") && stopped(10, 1));
    HOLDS(until(&t, "3=", 64, &there) == 0 && has("3\r\n") && stopped(TECO_NOWHERE, 0));
    HOLDS(until(&t, "4=", 1, &here) == TECO_TTY && steps == 1);
    HOLDS(teco_stop(&there, 1) == 0);
    HOLDS(until(&t, " 5=", 64, &here) == TECO_LIM && n == 0 && steps == 0 && stopped(1, 0));
    HOLDS(until(&t, "6=", 64, &there) == TECO_LIM && steps == 0 && run(&t, "7=", 64) == 0 && run(&t, "8=", 64) == 0);
    HOLDS(until(&t, "", 64, &here) == 0 && steps == 0 && stopped(TECO_NOWHERE, 0));
    HOLDS(teco_strings(&t, &n) == 0 && n == 9 && teco_undo(&t) == 0 && teco_redo(&t) == 0);
    HOLDS(teco_stop(&here, 0) == 0 && until(&t, "9=", 64, &here) == 0 && has("9\r\n"));
    HOLDS(teco_stop(&here, 255) == 0 && until(&t, "9=", 64, &there) == TECO_LIM && steps == 0);
    teco_stopper_close(&there);
    HOLDS(there.at == NULL && until(&t, "9=", 64, &there) == 0 && until(&t, "9=", 64, &here) == TECO_LIM);
    HOLDS(teco_stop(&here, 0) == 0 && until(&t, "9=", 64, &here) == 0);
    HOLDS(teco_stopper_open(&here, &there) == 0 && teco_stop(&there, 1) == 0 && until(&t, "9=", 64, &here) == TECO_LIM);
    teco_stopper_close(&here);
    HOLDS(here.at == NULL && teco_stop(&there, 0) == 0);
    teco_stopper_close(&there);
    teco_stopper_close(&there);
    HOLDS(there.at == NULL);
    teco_close(&t);
}

/* The wide language is that of the session, and a call of another language opens another session. */
static void wide_sessions(void)
{
    struct teco t = {0};
    HOLDS(teco_open_wide(&t, bytes(""), 0, 0, TECO_DEPTH_LIMIT + 1) == TECO_DEEP && t.at == NULL);
    HOLDS(teco_open(&t, bytes(""), 0, 0, 0) == 0 && teco_is_wide(&t) == 0 && run(&t, "0\"=1='", 64) == TECO_IQC && has("") && stopped(1, 0));
    HOLDS(teco_open_wide(&t, bytes(""), 0, 0, TECO_DEPTH_LIMIT + 1) == TECO_DEEP && teco_is_wide(&t) == 0);
    HOLDS(teco_open_wide(&t, bytes("one\ntwo"), 7, 1, 2) == 0 && teco_is_wide(&t) == 1 && run(&t, "0\"=1='", 64) == 0 && has("1\r\n"));
    HOLDS(run(&t, "Iab\033J:XA\033\033", 0) == 0 && run(&t, "ZJ:XAJ:XA", 0) == 0 && teco_register(&t, 'A', room, 64, &n) == 0 && has("abab"));
    HOLDS(teco_undo(&t) == 0 && teco_register(&t, 'A', room, 64, &n) == 0 && has("ab") && teco_undo(&t) == 0 && teco_undo(&t) == TECO_NTU);
    HOLDS(teco_is_wide(&t) == 1 && run(&t, "@^UA/0\"=2='/MA", 64) == 0 && has("2\r\n"));
    HOLDS(run(&t, "HKY", 0) == 0 && teco_text(&t, 0, room, 64, &n) == 0 && has("one\n"));
    HOLDS(teco_open(&t, bytes(""), 0, 0, 0) == 0 && teco_is_wide(&t) == 0);
    teco_close(&t);
}

static struct teco_token seen;

static uint8_t token(const char *text, size_t place)
{
    seen = (struct teco_token){.from = 99, .to = 99, .kind = 99, .size = 99};
    return teco_token(bytes(text), strlen(text), place, &seen);
}

static uint8_t token_wide(const char *text, size_t place)
{
    seen = (struct teco_token){.from = 99, .to = 99, .kind = 99, .size = 99};
    return teco_token_wide(bytes(text), strlen(text), place, &seen);
}

/* Whether a token was read between two places, with a text of so many bytes. */
static int read_there(size_t begins, size_t ends, uint8_t is, size_t text)
{
    return seen.from == begins && seen.to == ends && seen.kind == is && seen.size == text;
}

static void tokens(void)
{
    HOLDS(token(" \r\n12A", 0) == 0 && read_there(3, 5, TECO_TOKEN_DIGITS, 0));
    HOLDS(token(" \r\n12A", 4) == 0 && read_there(4, 5, TECO_TOKEN_DIGITS, 0));
    HOLDS(token(" \r\n12A", 5) == 0 && read_there(5, 6, TECO_TOKEN_LEVEL, 0));
    HOLDS(token("12A \n", 3) == TECO_NO_TOKEN && read_there(5, 5, 0, 0));
    HOLDS(token("12A", 4) == TECO_NO_TOKEN && read_there(3, 3, 0, 0));
    HOLDS(token("12A", SIZE_MAX) == TECO_NO_TOKEN && read_there(3, 3, 0, 0) && token("", 0) == TECO_NO_TOKEN);
    HOLDS(token("Z", 0) == 0 && read_there(0, 1, TECO_TOKEN_VALUE, 0));
    HOLDS(token("H", 0) == 0 && read_there(0, 1, TECO_TOKEN_ARITHMETIC, 0));
    HOLDS(token("ex", 0) == 0 && read_there(0, 2, TECO_TOKEN_COMMAND, 0));
    HOLDS(token(" ==J", 0) == 0 && read_there(1, 3, TECO_TOKEN_COMMAND, 0));
    HOLDS(token(":QA", 0) == 0 && read_there(0, 3, TECO_TOKEN_REGISTER, 0));
    HOLDS(token("^^\033J", 0) == 0 && read_there(0, 3, TECO_TOKEN_BYTE, 0));
    HOLDS(token("Iab\033J", 0) == 0 && read_there(0, 4, TECO_TOKEN_TEXT, 2));
    HOLDS(token("@I/a\033b/", 0) == 0 && read_there(0, 7, TECO_TOKEN_TEXT, 3));
    HOLDS(token("S\033", 0) == 0 && read_there(0, 2, TECO_TOKEN_TEXT, 0));
    HOLDS(token("Otag\033", 0) == 0 && read_there(0, 5, TECO_TOKEN_JUMP, 3));
    HOLDS(token("^UAxyz\033", 0) == 0 && read_there(0, 7, TECO_TOKEN_SET_TEXT, 3));
    HOLDS(token("FSone\033two!\033", 0) == 0 && read_there(0, 11, TECO_TOKEN_REPLACE, 4));
    HOLDS(token("<", 0) == 0 && read_there(0, 1, TECO_TOKEN_MARK, 0));
    HOLDS(token("\"nJ'", 0) == 0 && read_there(0, 2, TECO_TOKEN_TEST, 0));
    HOLDS(token("!tag!", 0) == 0 && read_there(0, 5, TECO_TOKEN_TAG, 3));
    HOLDS(token("\033\033", 1) == 0 && read_there(1, 2, TECO_TOKEN_ESCAPE, 0));
    HOLDS(token("  Iab", 0) == TECO_UTC && read_there(2, 5, 0, 0));
    HOLDS(token("JW", 1) == TECO_ILL && read_there(1, 2, 0, 0));
    HOLDS(token("Q!", 0) == TECO_IQN && read_there(0, 2, 0, 0));
    HOLDS(token("\"x", 0) == TECO_IQC && read_there(0, 2, 0, 0));
    HOLDS(token("\"=J'", 0) == TECO_IQC && read_there(0, 4, 0, 0) && token_wide("\"=J'", 0) == 0 && read_there(0, 2, TECO_TOKEN_TEST, 0));
    HOLDS(token(" :XAJ", 0) == TECO_ILL && read_there(1, 5, 0, 0) && token_wide(" :XAJ", 0) == 0 && read_there(1, 4, TECO_TOKEN_REGISTER, 0));
    HOLDS(token_wide("Iab\033J", 0) == 0 && read_there(0, 4, TECO_TOKEN_TEXT, 2) && token_wide("12A", SIZE_MAX) == TECO_NO_TOKEN);
    HOLDS(token_wide("  Iab", 0) == TECO_UTC && read_there(2, 5, 0, 0) && token_wide("JW", 1) == TECO_ILL && token_wide("\"x", 0) == TECO_IQC);
}

/* Whether a source is answered so, and has told this line and column; and whether it stands for these bytes. */
static int source(const char *text, size_t size, uint8_t code, uint64_t line, uint64_t column)
{
    struct teco_source told = {99, 99, 99};
    memset(room, '.', sizeof room);
    int is = teco_source(bytes(text), strlen(text), room, size, &told) == code && told.line == line && told.column == column;
    n = told.made;
    return is;
}

static int is_source(const char *text, const char *commands)
{
    return source(text, 64, 0, 0, 0) && has(commands) && room[n] == '.';
}

static void sources(void)
{
    HOLDS(is_source("", "") && is_source("  Iab$ !! a text\n  T\n", "Iab\033T") && is_source("#!/usr/bin/env\nJ$$\n", "J\033\033"));
    HOLDS(is_source("Ia^Jb^~^$^`^!^.^?^[$", "Ia\nb^$'!\177\033\033") && is_source("^a^Z^_^=", "\001\032\037^") && is_source("Ia \n b", "Iab"));
    HOLDS(is_source("#", "#") && is_source("!", "!") && is_source("Ia\\", "Ia\\"));
    HOLDS(source("J^", 64, TECO_CARET, 1, 2) && n == 0 && source("^+", 64, TECO_CARET, 1, 1) && source("J\n\n ^5", 64, TECO_CARET, 3, 2));
    HOLDS(source("J^+^+", 64, TECO_CARET, 1, 2) && n == 0 && room[0] == '.');
    HOLDS(source("Iabc$", 2, 0, 0, 0) && n == 5 && memcmp(room, "Ia.", 3) == 0 && source("Iabc$", 0, 0, 0, 0) && n == 5 && room[0] == '.');
}

static void turns(void)
{
    struct teco t = {0};
    teco_open(&t, bytes(""), 0, 0, 2);
    HOLDS(teco_undo(&t) == TECO_NTU && teco_redo(&t) == TECO_NTR && teco_rewind(&t, 1) == TECO_NTU);
    run(&t, "Ia\033", 0);
    run(&t, "Ib\033", 0);
    run(&t, "Ic\033Id\033", 0);
    HOLDS(teco_strings(&t, &n) == 0 && n == 2 && teco_cursor(&t, &n) == 0 && n == 2);
    HOLDS(teco_rewind(&t, 1) == 0 && teco_text(&t, 0, room, 64, &n) == 0 && has("abc"));
    HOLDS(teco_steps(&t, 1, &steps) == 0 && steps == 1);
    HOLDS(teco_undo(&t) == 0 && teco_undo(&t) == 0 && teco_undo(&t) == TECO_NTU);
    HOLDS(teco_text(&t, 0, room, 64, &n) == 0 && has("a"));
    HOLDS(teco_strings(&t, &n) == 0 && n == 2 && teco_cursor(&t, &n) == 0 && n == 0);
    HOLDS(teco_redo(&t) == 0 && teco_redo(&t) == 0 && teco_redo(&t) == TECO_NTR);
    HOLDS(teco_text(&t, 0, room, 64, &n) == 0 && has("abc"));
    HOLDS(teco_string(&t, 0, room, 64, &n) == 0 && has("Ib\033"));
    HOLDS(teco_string(&t, 2, room, 64, &n) == TECO_OUTSIDE && n == 0);
    HOLDS(teco_steps(&t, 2, &steps) == TECO_OUTSIDE && steps == 0);
    HOLDS(teco_undo(&t) == 0 && teco_rewind(&t, UINT64_MAX) == 0 && teco_redo(&t) == TECO_NTR);
    HOLDS(teco_strings(&t, &n) == 0 && n == 1 && teco_text(&t, 0, room, 64, &n) == 0 && has("ab"));
    HOLDS(teco_forget(&t) == 0 && teco_strings(&t, &n) == 0 && n == 1);
    HOLDS(teco_undo(&t) == 0 && teco_forget(&t) == 0 && teco_redo(&t) == TECO_NTR && teco_undo(&t) == TECO_NTU);
    HOLDS(teco_strings(&t, &n) == 0 && n == 0 && teco_text(&t, 0, room, 64, &n) == 0 && has("a"));
    HOLDS(run(&t, "Ic\033", 0) == 0 && run(&t, "EX", 0) == 0 && teco_forget(&t) == 0 && teco_done(&t) == 1);
    HOLDS(teco_undo(&t) == 0 && teco_forget(&t) == 0 && teco_cursor(&t, &n) == 0 && n == 1 && teco_undo(&t) == 0 && teco_redo(&t) == 0);
    teco_close(&t);
}

static void looks(void)
{
    struct teco t = {0};
    int32_t number;
    teco_open(&t, bytes("one\ftwo"), 7, 0, 0);
    HOLDS(teco_search(&t, room, 64, &n) == TECO_OUTSIDE && n == 0);
    HOLDS(teco_input(&t, 0, room, 64, &n) == 0 && has("one\ftwo") && teco_input(&t, 5, room, 64, &n) == 0 && has("wo"));
    HOLDS(teco_input(&t, 7, room, 64, &n) == 0 && has("") && teco_input(&t, SIZE_MAX, room, 64, &n) == 0 && has(""));
    memset(room, '.', sizeof room);
    HOLDS(teco_input(&t, 4, room, 2, &n) == 0 && n == 3 && memcmp(room, "tw.", 3) == 0);
    HOLDS(run(&t, "Y-7UQ@^UA/text/[A2C", 64) == 0);
    HOLDS(teco_length(&t, &n) == 0 && n == 3 && teco_pointer(&t, &n) == 0 && n == 2);
    HOLDS(teco_place(&t, &n) == 0 && n == 4 && teco_form_feed(&t) == 1);
    HOLDS(teco_text(&t, 1, room, 64, &n) == 0 && has("ne"));
    HOLDS(teco_text(&t, 3, room, 64, &n) == 0 && has("") && teco_text(&t, 99, room, 64, &n) == 0 && has(""));
    memset(room, '.', sizeof room);
    HOLDS(teco_text(&t, 0, room, 2, &n) == 0 && n == 3 && memcmp(room, "on.", 3) == 0);
    HOLDS(teco_number(&t, 'q', &number) == 0 && number == -7);
    HOLDS(teco_number(&t, '!', &number) == TECO_OUTSIDE && number == 0);
    HOLDS(teco_register(&t, 'a', room, 64, &n) == 0 && has("text"));
    HOLDS(teco_register(&t, '9', room, 64, &n) == 0 && has(""));
    HOLDS(teco_register(&t, '!', room, 64, &n) == TECO_OUTSIDE && n == 0);
    HOLDS(teco_pushed(&t, &n) == 0 && n == 1);
    HOLDS(run(&t, "JSn\033", 0) == 0 && teco_found(&t) == 1);
    HOLDS(teco_search(&t, room, 64, &n) == 0 && has("n"));
    HOLDS(run(&t, "Sz\033", 0) == 22 && teco_found(&t) == 0);
    HOLDS(run(&t, "P", 0) == 0 && teco_output(&t, 0, room, 64, &n) == 0 && has("one\f"));
    HOLDS(teco_output(&t, 3, room, 64, &n) == 0 && has("\f") && teco_output(&t, 9, room, 64, &n) == 0 && has(""));
    HOLDS(teco_form_feed(&t) == 0 && teco_either_case(&t) == 0 && teco_done(&t) == 0);
    HOLDS(run(&t, "HKIa\nb\013c\014d\n\0332JIx\033", 0) == 0);
    HOLDS(teco_lines(&t, 0, SIZE_MAX, &n) == 0 && n == 4 && teco_lines(&t, 0, 9, &n) == 0 && n == 4);
    HOLDS(teco_lines(&t, 2, 5, &n) == 0 && n == 1 && teco_lines(&t, 1, 2, &n) == 0 && n == 1 && teco_lines(&t, 2, 4, &n) == 0 && n == 0);
    HOLDS(teco_lines(&t, 5, 2, &n) == 0 && n == 0 && teco_lines(&t, 0, 0, &n) == 0 && n == 0 && teco_lines(&t, 9, 99, &n) == 0 && n == 0);
    teco_close(&t);
}

/* Whether change k of string i is of this kind, for this register, after so many steps. */
static int is(const struct teco *t, size_t i, size_t k, uint8_t kind, uint8_t name, uint64_t step)
{
    struct teco_change change;
    return teco_change(t, i, k, &change) == 0 && change.kind == kind && change.name == name && change.step == step;
}

/* Whether it takes so many bytes out at a place, and puts so many in. */
static int splices(const struct teco *t, size_t i, size_t k, size_t at, size_t gone, size_t came)
{
    struct teco_splice splice;
    return teco_splice(t, i, k, &splice) == 0 && splice.at == at && splice.gone == gone && splice.came == came;
}

static void changes(void)
{
    struct teco t = {0};
    struct teco_change change = {1, 1, 1};
    struct teco_splice splice = {1, 1, 1};
    teco_open(&t, bytes("one\ftwo"), 7, 0, 0);
    HOLDS(run(&t, "Iabc\0339J7UQ", 0) == 20);
    HOLDS(run(&t, "-DIxy\033@^U9/text/[9]Z", 0) == 0);
    HOLDS(teco_changes(&t, 0, &n) == 0 && n == 1);
    HOLDS(is(&t, 0, 0, TECO_KIND_SPLICE, 0, 0) && splices(&t, 0, 0, 0, 3, 0));
    HOLDS(teco_changes(&t, 1, &n) == 0 && n == 5);
    HOLDS(is(&t, 1, 0, TECO_KIND_SPLICE, 0, 1) && splices(&t, 1, 0, 2, 0, 1));
    HOLDS(is(&t, 1, 1, TECO_KIND_SPLICE, 0, 2) && splices(&t, 1, 1, 2, 2, 0));
    HOLDS(is(&t, 1, 2, TECO_KIND_TEXT, '9', 3) && is(&t, 1, 3, TECO_KIND_PUSH, 0, 4) && is(&t, 1, 4, TECO_KIND_POP, 'Z', 5));
    HOLDS(teco_undo(&t) == 0 && splices(&t, 1, 0, 2, 1, 0) && splices(&t, 1, 1, 2, 0, 2));
    HOLDS(is(&t, 1, 3, TECO_KIND_PUSH, 0, 4) && is(&t, 1, 4, TECO_KIND_POP, 'Z', 5) && splices(&t, 0, 0, 0, 3, 0));
    HOLDS(teco_redo(&t) == 0 && splices(&t, 1, 1, 2, 2, 0));
    HOLDS(run(&t, "7UqJ0^XSy\033EX", 0) == 0);
    HOLDS(is(&t, 2, 0, TECO_KIND_NUMBER, 'Q', 1) && is(&t, 2, 1, TECO_KIND_POINT, 0, 2) && is(&t, 2, 2, TECO_KIND_MODE, 0, 4));
    HOLDS(is(&t, 2, 3, TECO_KIND_SEARCH, 0, 5) && is(&t, 2, 4, TECO_KIND_FOUND, 0, 5) && is(&t, 2, 5, TECO_KIND_POINT, 0, 5));
    HOLDS(is(&t, 2, 6, TECO_KIND_SPLICE, 0, 6) && is(&t, 2, 7, TECO_KIND_PAGES, 0, 6) && is(&t, 2, 8, TECO_KIND_DONE, 0, 6));
    HOLDS(teco_changes(&t, 3, &n) == TECO_OUTSIDE && n == 0);
    HOLDS(teco_change(&t, 1, 5, &change) == TECO_OUTSIDE && change.kind == 0 && change.name == 0 && change.step == 0);
    HOLDS(teco_splice(&t, 1, 2, &splice) == TECO_OUTSIDE && splice.at == 0 && splice.gone == 0 && splice.came == 0);
    teco_close(&t);
}

static void closed(void)
{
    struct teco t = {0};
    int32_t number = 1;
    uint64_t k = 1;
    struct teco_change change = {1, 1, 1};
    struct teco_splice splice = {1, 1, 1};
    size_t one = 1;
    memset(room, '.', sizeof room);
    HOLDS(run(&t, "2=", 64) == TECO_CLOSED && n == 0 && steps == 0 && stopped(TECO_NOWHERE, 0));
    struct teco_stopper here = {0}, there = {0};
    HOLDS(teco_stopper_open(&here, &there) == 0 && teco_stop(&there, 1) == 0);
    HOLDS(until(&t, "9J", 64, &here) == TECO_CLOSED && n == 0 && steps == 0 && stopped(TECO_NOWHERE, 0));
    HOLDS(frames(&t, "9J", 3, &here) == TECO_CLOSED && n == 0 && steps == 0 && stopped_inside(TECO_NOWHERE, 0) && is_untold(0));
    teco_stopper_close(&here);
    teco_stopper_close(&there);
    HOLDS(teco_undo(&t) == TECO_CLOSED && teco_redo(&t) == TECO_CLOSED && teco_rewind(&t, 0) == TECO_CLOSED);
    HOLDS(teco_forget(&t) == TECO_CLOSED && (one = 1, teco_input(&t, 0, room, 64, &one)) == TECO_CLOSED && one == 0);
    HOLDS((one = 1, teco_lines(&t, 0, 9, &one)) == TECO_CLOSED && one == 0);
    HOLDS(teco_strings(&t, &one) == TECO_CLOSED && one == 0);
    HOLDS((one = 1, teco_cursor(&t, &one)) == TECO_CLOSED && one == 0);
    HOLDS(teco_steps(&t, 0, &k) == TECO_CLOSED && k == 0);
    HOLDS((one = 1, teco_string(&t, 0, room, 64, &one)) == TECO_CLOSED && one == 0);
    HOLDS((one = 1, teco_changes(&t, 0, &one)) == TECO_CLOSED && one == 0);
    HOLDS(teco_change(&t, 0, 0, &change) == TECO_CLOSED && change.kind == 0 && change.name == 0 && change.step == 0);
    HOLDS(teco_splice(&t, 0, 0, &splice) == TECO_CLOSED && splice.at == 0 && splice.gone == 0 && splice.came == 0);
    HOLDS((one = 1, teco_length(&t, &one)) == TECO_CLOSED && one == 0);
    HOLDS((one = 1, teco_pointer(&t, &one)) == TECO_CLOSED && one == 0);
    HOLDS((one = 1, teco_text(&t, 0, room, 64, &one)) == TECO_CLOSED && one == 0);
    HOLDS((one = 1, teco_output(&t, 0, room, 64, &one)) == TECO_CLOSED && one == 0);
    HOLDS(teco_number(&t, 'A', &number) == TECO_CLOSED && number == 0);
    HOLDS((one = 1, teco_register(&t, 'A', room, 64, &one)) == TECO_CLOSED && one == 0);
    HOLDS((one = 1, teco_search(&t, room, 64, &one)) == TECO_CLOSED && one == 0);
    HOLDS((one = 1, teco_pushed(&t, &one)) == TECO_CLOSED && one == 0);
    HOLDS((one = 1, teco_place(&t, &one)) == TECO_CLOSED && one == 0);
    HOLDS(teco_done(&t) == TECO_CLOSED && teco_found(&t) == TECO_CLOSED);
    HOLDS(teco_form_feed(&t) == TECO_CLOSED && teco_either_case(&t) == TECO_CLOSED && teco_is_wide(&t) == TECO_CLOSED);
    HOLDS(room[0] == '.' && memcmp(room, room + 1, sizeof room - 1) == 0 && t.at == NULL);
}

/* Looks in every way at a handle. How many looks told something. */
static int told(const struct teco *t)
{
    int32_t number;
    uint64_t k;
    struct teco_change change;
    struct teco_splice splice;
    return (teco_strings(t, &n) == 0) + (teco_cursor(t, &n) == 0) + (teco_steps(t, 0, &k) == 0)
        + (teco_string(t, 0, room, 64, &n) == 0) + (teco_changes(t, 0, &n) == 0) + (teco_change(t, 0, 0, &change) == 0)
        + (teco_splice(t, 0, 0, &splice) == 0) + (teco_length(t, &n) == 0) + (teco_pointer(t, &n) == 0)
        + (teco_text(t, 0, room, 64, &n) == 0) + (teco_output(t, 0, room, 64, &n) == 0) + (teco_number(t, 'A', &number) == 0)
        + (teco_register(t, 'A', room, 64, &n) == 0) + (teco_search(t, room, 64, &n) == 0) + (teco_pushed(t, &n) == 0)
        + (teco_place(t, &n) == 0) + (teco_lines(t, 0, 9, &n) == 0) + (teco_input(t, 0, room, 64, &n) == 0)
        + (teco_done(t) <= 1) + (teco_found(t) <= 1) + (teco_form_feed(t) <= 1) + (teco_either_case(t) <= 1)
        + (teco_is_wide(t) <= 1);
}

/* No call but an open and a close writes the handle: each other one at a handle in memory that can't be written, closed and open. */
static void unwritten(void)
{
    struct teco *t = mmap(NULL, sizeof *t, PROT_READ, MAP_PRIVATE | MAP_ANONYMOUS, -1, 0);
    HOLDS(t != MAP_FAILED && told(t) == 0 && run(t, "Y", 64) == TECO_CLOSED);
    HOLDS(teco_undo(t) == TECO_CLOSED && teco_redo(t) == TECO_CLOSED && teco_rewind(t, 0) == TECO_CLOSED && teco_forget(t) == TECO_CLOSED);
    HOLDS(mprotect(t, sizeof *t, PROT_READ | PROT_WRITE) == 0 && teco_open(t, bytes("one"), 3, 0, 0) == 0);
    HOLDS(mprotect(t, sizeof *t, PROT_READ) == 0);
    HOLDS(run(t, "YSe\033I.\033", 64) == 0 && told(t) == 23);
    HOLDS(teco_undo(t) == 0 && teco_redo(t) == 0 && teco_rewind(t, 1) == 0 && teco_undo(t) == 0 && teco_forget(t) == 0);
    HOLDS(run(t, "J9J", 64) == 20 && stopped(2, 0));
    HOLDS(frames(t, "@^UA/9J/MA", 3, &(struct teco_stopper){0}) == 20 && stopped_inside(1, 1) && is_called(0, 8, 'A'));
    HOLDS(mprotect(t, sizeof *t, PROT_READ | PROT_WRITE) == 0);
    teco_close(t);
    munmap(t, sizeof *t);
}

/* The same of a stopper, but for a run, which has it in a struct that it writes. */
static void unwritten_stopper(void)
{
    struct teco t = {0};
    struct teco_stopper there = {0}, *here = mmap(NULL, sizeof *here, PROT_READ, MAP_PRIVATE | MAP_ANONYMOUS, -1, 0);
    teco_open(&t, bytes(""), 0, 0, 0);
    HOLDS(here != MAP_FAILED && teco_stop(here, 1) == TECO_CLOSED && until(&t, "2=", 64, here) == 0);
    HOLDS(mprotect(here, sizeof *here, PROT_READ | PROT_WRITE) == 0 && teco_stopper_open(here, &there) == 0);
    HOLDS(mprotect(here, sizeof *here, PROT_READ) == 0);
    HOLDS(until(&t, "2=", 64, here) == 0 && teco_stop(here, 1) == 0 && until(&t, "2=", 64, here) == TECO_LIM);
    HOLDS(mprotect(here, sizeof *here, PROT_READ | PROT_WRITE) == 0);
    teco_stopper_close(here);
    teco_stopper_close(&there);
    teco_close(&t);
    munmap(here, sizeof *here);
}

static void many(void)
{
    for (int i = 0; i < 10000; i++) {
        struct teco t = {0};
        struct teco_stopper here = {0}, there = {0};
        HOLDS(teco_open(&t, bytes("in"), 2, 0, (size_t)i % 3) == 0 && teco_stopper_open(&here, &there) == 0);
        HOLDS(run(&t, "YIab\033UA[A", 0) != TECO_MEM);
        HOLDS(run(&t, "@^UA/3<9J>/2<MA>", 0) == 20 && stopped(13, 1));
        HOLDS(teco_stop(i % 2 ? &here : &there, (uint8_t)(i % 3)) == 0 && until(&t, "J", 0, &here) == (i % 3 ? TECO_LIM : 0));
        if (i % 2)
            teco_undo(&t);
        teco_stopper_close(i % 2 ? &here : &there);
        teco_stopper_close(i % 2 ? &there : &here);
        teco_close(&t);
    }
}

/* A file of a session, in memory. */
static struct {
    uint8_t at[4096];
    size_t count;
    struct teco_line line;
} file;

/* Puts the head, or the line of what was done, behind what the file has. */
static uint8_t keep_head_of(const char *input, size_t lines, size_t depth)
{
    file.line.room = file.at;
    file.line.room_size = sizeof file.at;
    uint8_t code = teco_head(bytes(input), strlen(input), lines, depth, &file.line);
    file.count = file.line.made;
    return code;
}

static uint8_t keep_head(const char *input, size_t depth)
{
    return keep_head_of(input, 0, depth);
}

static uint8_t keep(uint8_t kind, uint64_t number, const char *text)
{
    file.line.kind = kind;
    file.line.steps = number;
    file.line.room = file.at + file.count;
    file.line.room_size = sizeof file.at - file.count;
    uint8_t code = teco_record(bytes(text), strlen(text), &file.line);
    file.count += file.line.made;
    return code;
}

/* Runs a string, and keeps it. */
static uint8_t run_kept(struct teco *t, const char *text)
{
    uint8_t code = run(t, text, 64);
    HOLDS(keep(TECO_RAN, steps, text) == 0);
    return code;
}

/* Makes a file of a session: text, an error, a limit, an undo, a redo, a rewind, undone strings that are dropped, and one that is undone. */
static void make_file(struct teco *t, size_t depth)
{
    HOLDS(teco_open(t, bytes("one\ntwo"), 7, 0, depth) == 0 && keep_head("one\ntwo", depth) == 0);
    HOLDS(run_kept(t, "Y5UQ") == 0 && run_kept(t, "Ia\033Sx\033") == 22 && run_kept(t, "<Ib\033>") == TECO_LIM);
    HOLDS(teco_undo(t) == 0 && keep(TECO_UNDID, 0, "") == 0 && teco_redo(t) == 0 && keep(TECO_REDID, 0, "") == 0);
    HOLDS(teco_rewind(t, 4) == 0 && keep(TECO_REWOUND, 4, "") == 0 && teco_undo(t) == 0 && keep(TECO_UNDID, 0, "") == 0);
    HOLDS(teco_forget(t) == 0 && keep(TECO_FORGOT, 0, "") == 0 && run_kept(t, "ZJI^$\n\033") == 0);
    HOLDS(run_kept(t, "HK") == 0 && teco_undo(t) == 0 && keep(TECO_UNDID, 0, "") == 0);
}

/* Whether two sessions have the same text, number in Q, strings and steps, and as many that are not undone. */
static int are_alike(struct teco *one, struct teco *two)
{
    uint8_t texts[2][64];
    size_t sizes[2], counts[2], cursors[2];
    uint64_t took[2];
    int32_t numbers[2];
    int alike = teco_text(one, 0, texts[0], 64, &sizes[0]) == teco_text(two, 0, texts[1], 64, &sizes[1]) && sizes[0] == sizes[1]
        && memcmp(texts[0], texts[1], sizes[0]) == 0 && teco_number(one, 'Q', &numbers[0]) == teco_number(two, 'Q', &numbers[1])
        && numbers[0] == numbers[1] && teco_strings(one, &counts[0]) == teco_strings(two, &counts[1]) && counts[0] == counts[1]
        && teco_cursor(one, &cursors[0]) == teco_cursor(two, &cursors[1]) && cursors[0] == cursors[1];
    for (size_t i = 0; alike && i < counts[0]; i++)
        alike = teco_steps(one, i, &took[0]) == teco_steps(two, i, &took[1]) && took[0] == took[1]
            && teco_string(one, i, texts[0], 64, &sizes[0]) == teco_string(two, i, texts[1], 64, &sizes[1]) && sizes[0] == sizes[1]
            && memcmp(texts[0], texts[1], sizes[0]) == 0;
    return alike;
}

static void a_session_is_kept_and_opened_again(void)
{
    for (size_t depth = 0; depth < 3; depth++) {
        struct teco t = {0}, again = {0};
        struct teco_resumed resumed;
        make_file(&t, depth);
        HOLDS(teco_resume(&again, file.at, file.count, &resumed) == 0 && are_alike(&t, &again));
        HOLDS(resumed.good == file.count && resumed.records == 11 && resumed.ending == TECO_WHOLE);
        HOLDS(memcmp(resumed.check, file.line.check, sizeof resumed.check) == 0);
        HOLDS(teco_redo(&t) == 0 && teco_redo(&again) == 0 && are_alike(&t, &again) && teco_redo(&again) == TECO_NTR);
        while (teco_undo(&t) == 0)
            HOLDS(teco_undo(&again) == 0 && are_alike(&t, &again));
        HOLDS(teco_undo(&again) == TECO_NTU && teco_resume(&again, file.at, file.count, &resumed) == 0);
        teco_close(&t);
        teco_close(&again);
    }
}

static void pages_of_lines_are_kept(void)
{
    struct teco t = {0}, again = {0};
    struct teco_resumed resumed;
    HOLDS(keep_head_of("one\ntwo\nthree", 1, 0) == 0 && teco_open(&t, bytes("one\ntwo\nthree"), 13, 1, 0) == 0);
    HOLDS(run_kept(&t, "Y") == 0 && teco_resume(&again, file.at, file.count, &resumed) == 0 && are_alike(&t, &again));
    HOLDS(run(&again, "P", 0) == 0 && teco_text(&again, 0, room, 64, &n) == 0 && has("two\n"));
    HOLDS(keep_head("one\ntwo\nthree", 0) == 0 && keep(TECO_RAN, steps, "Y") == 0);
    HOLDS(teco_resume(&again, file.at, file.count, &resumed) == 0 && teco_text(&again, 0, room, 64, &n) == 0 && has("one\ntwo\nthree"));
    teco_close(&t);
    teco_close(&again);
}

/* A session in the wide language says so in its head, and is opened again in it. */
static void the_wide_language_is_kept(void)
{
    static const char FRONT[] = "teco session 1 wide\n";
    struct teco t = {0}, again = {0};
    struct teco_resumed resumed;
    HOLDS(keep_head_of("one\ntwo", 1, 3) == 0 && memcmp(file.at, "teco session 1\n", 15) == 0);
    HOLDS(teco_head_wide(bytes("one\ntwo"), 7, 1, 3, &file.line) == 0 && memcmp(file.at, FRONT, sizeof FRONT - 1) == 0);
    file.count = file.line.made;
    HOLDS(teco_open_wide(&t, bytes("one\ntwo"), 7, 1, 3) == 0 && run_kept(&t, "Y0\"=:XQ'") == 0 && run_kept(&t, "J:XQ:W") == TECO_ILL);
    HOLDS(teco_resume(&again, file.at, file.count, &resumed) == 0 && teco_is_wide(&again) == 1 && are_alike(&t, &again));
    HOLDS(resumed.records == 2 && resumed.lines == 1 && resumed.ending == TECO_WHOLE && memcmp(resumed.check, file.line.check, 16) == 0);
    HOLDS(teco_register(&again, 'Q', room, 64, &n) == 0 && has("one\none\n") && run(&again, "0\"=1='", 64) == 0 && has("1\r\n"));
    HOLDS(keep_head("", 0) == 0 && teco_resume(&again, file.at, file.count, &resumed) == 0 && teco_is_wide(&again) == 0);
    teco_close(&t);
    teco_close(&again);
}

/* Whether the file is refused so, and the handle and what is told stay. */
static int is_refused(struct teco *t, size_t count, uint8_t code)
{
    struct teco_resumed resumed = {.good = 77, .ending = 77};
    void *was = t->at;
    return teco_resume(t, file.at, count, &resumed) == code && t->at == was && resumed.good == 77 && resumed.ending == 77;
}

static void a_file_ends_anywhere_and_is_changed_anywhere(void)
{
    struct teco t = {0}, again = {0};
    struct teco_resumed resumed;
    make_file(&t, 0);
    size_t head = (size_t)((uint8_t *)strstr((char *)file.at, " begun\n") - file.at) + 7;
    HOLDS(is_refused(&t, 0, TECO_TORN_HEAD) && is_refused(&t, head - 1, TECO_TORN_HEAD) && is_refused(&again, 20, TECO_TORN_HEAD));
    HOLDS(teco_resume(&again, file.at, head, &resumed) == 0 && resumed.records == 0 && teco_strings(&again, &n) == 0 && n == 0);
    HOLDS(teco_resume(&again, file.at, file.count - 1, &resumed) == 0 && resumed.ending == TECO_TORN && resumed.records == 10);
    HOLDS(resumed.good < file.count && file.at[resumed.good - 1] == '\n' && teco_cursor(&again, &n) == 0 && n == 4);
    file.at[head + 20]++;
    HOLDS(teco_resume(&again, file.at, file.count, &resumed) == 0 && resumed.ending == TECO_CHANGED && resumed.good == head);
    file.at[head - 20]++;
    HOLDS(is_refused(&t, file.count, TECO_CHANGED_HEAD));
    file.at[13]++;
    HOLDS(is_refused(&t, file.count, TECO_CHANGED_HEAD));
    HOLDS(keep_head("one", 0) == 0 && keep(TECO_RAN, 2, "Y") == 0 && is_refused(&t, file.count, TECO_OTHERWISE));
    HOLDS(keep_head("one", 0) == 0 && keep(TECO_UNDID, 0, "") == 0 && is_refused(&t, file.count, TECO_OTHERWISE));
    HOLDS(keep_head("one", TECO_DEPTH_LIMIT + 1) == 0 && is_refused(&t, file.count, TECO_DEEP));
    teco_close(&t);
    teco_close(&again);
}

static void a_line_that_does_not_fit_is_not_copied(void)
{
    uint8_t small[24];
    memset(small, '.', sizeof small);
    HOLDS(keep_head("one", 0) == 0);
    struct teco_line line = file.line, before;
    line.kind = TECO_RAN;
    line.steps = 1;
    line.room = small;
    line.room_size = 23;
    before = line;
    HOLDS(teco_record(bytes("Y"), 1, &line) == 0 && line.made == 25 && small[0] == '.' && memcmp(line.check, before.check, 16) == 0);
    line.kind = TECO_UNDID;
    HOLDS(teco_record(bytes(""), 0, &line) == 0 && line.made == 22 && memcmp(small + 16, " undo\n.", 7) == 0 && memcmp(small, line.check, 16) == 0);
    before = line;
    for (int kind = 0; kind < 256; kind += kind == 0 ? 6 : 1) {
        line.kind = (uint8_t)kind;
        HOLDS(teco_record(bytes(""), 0, &line) == TECO_OUTSIDE && line.made == 0 && memcmp(line.check, before.check, 16) == 0);
    }
    HOLDS(teco_head(bytes("one"), 3, 0, 0, &line) == 0 && line.made > 23 && memcmp(small + 16, " undo\n.", 7) == 0);
}

int main(void)
{
    a_session_is_kept_and_opened_again();
    pages_of_lines_are_kept();
    the_wide_language_is_kept();
    a_file_ends_anywhere_and_is_changed_anywhere();
    a_line_that_does_not_fit_is_not_copied();
    opens();
    pages();
    runs();
    stops();
    breaks();
    open_calls();
    wide_sessions();
    tokens();
    sources();
    turns();
    looks();
    changes();
    closed();
    unwritten();
    unwritten_stopper();
    many();
    return failed;
}
