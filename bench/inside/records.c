/*
 * Times a run of strings whose lines are written to the file of a session, beside the same without; and opening a session again by its file,
 * of strings as a person types them over a text of 20,000 lines. Each line has the part, the program, the nanoseconds of the processor, which
 * are the least of some rounds, and what the text came to.
 *
 *   records STRINGS TYPED      so many strings of a script, and so many of a person
 */
#define _POSIX_C_SOURCE 200809L
#include "teco.h"
#include <fcntl.h>
#include <stdio.h>
#include <stdlib.h>
#include <string.h>
#include <time.h>
#include <unistd.h>

enum { ROUNDS = 5, LINES = 20000, MOST_LINE = 200 };

/* The file of a session, in memory or where it is written. */
struct kept {
    struct teco_line line;
    uint8_t *bytes;
    size_t count;
    int file;
};

static double now(void)
{
    struct timespec t;
    clock_gettime(CLOCK_PROCESS_CPUTIME_ID, &t);
    return (double)t.tv_sec * 1e9 + (double)t.tv_nsec;
}

/* Runs a string, and keeps its line if there is a file: in memory, and behind what was written. */
static void run(struct teco *t, const char *string, struct kept *kept)
{
    static uint8_t room[64];
    struct teco_run run = {.limit = 1000000000, .room = room, .room_size = sizeof room, .frames = TECO_NO_FRAMES};
    size_t n = strlen(string);
    (void)teco_run(t, (const uint8_t *)string, n, &run);
    if (kept == NULL)
        return;
    kept->line.kind = TECO_RAN;
    kept->line.steps = run.steps;
    kept->line.room = kept->bytes + kept->count;
    kept->line.room_size = MOST_LINE;
    if (teco_record((const uint8_t *)string, n, &kept->line) != 0)
        exit(1);
    if (kept->file >= 0 && write(kept->file, kept->line.room, kept->line.made) != (ssize_t)kept->line.made)
        exit(1);
    if (kept->file < 0)
        kept->count += kept->line.made;
}

/* What a session came to: its text and its strings. */
static uint64_t sum_of(const struct teco *t)
{
    static uint8_t text[1 << 21];
    uint64_t sum = 14695981039346656037u;
    size_t n, strings, pointer;
    (void)teco_text(t, 0, text, sizeof text, &n);
    (void)teco_strings(t, &strings);
    (void)teco_pointer(t, &pointer);
    for (size_t i = 0; i < n; i++)
        sum = (sum ^ text[i]) * 1099511628211u;
    return sum ^ strings ^ pointer << 32;
}

/* A script replaces a word in each line of a page of 300 lines, and puts it back. */
static double script(long strings, struct kept *kept, uint64_t *sum)
{
    static char page[16384];
    struct teco t = {0};
    size_t n = 0;
    for (int line = 0; line < 300; line++)
        n += (size_t)sprintf(page + n, "line %d has a dog and some other words\n", line);
    if (teco_open(&t, (const uint8_t *)page, n, 0, 0) != 0)
        exit(1);
    run(&t, "Y", kept);
    double begun = now();
    for (long i = 0; i < strings; i++)
        run(&t, i % 2 == 0 ? "J<FSdog\033cat\033;>" : "J<FScat\033dog\033;>", kept);
    double taken = now() - begun;
    *sum = sum_of(&t);
    teco_close(&t);
    return taken;
}

static void tell_scripts(long strings)
{
    double with = 0, without = 0;
    uint64_t sums[2];
    for (int round = 0; round < ROUNDS; round++) {
        struct kept kept = {.bytes = malloc(MOST_LINE), .file = open("kept", O_WRONLY | O_CREAT | O_TRUNC | O_APPEND, 0600)};
        double one = script(strings, &kept, &sums[0]), other = script(strings, NULL, &sums[1]);
        with = round == 0 || one < with ? one : with;
        without = round == 0 || other < without ? other : without;
        (void)close(kept.file);
        free(kept.bytes);
    }
    printf("run ours %.0f %llx\nrun without %.0f %llx\n", with, (unsigned long long)sums[0], without, (unsigned long long)sums[1]);
}

/* String i of a person: short ones, at places near by, and at another one after every 60. */
static void typed(char *string, long i)
{
    switch (i % 6) {
    case 0: (void)sprintf(string, "%ld%s", i % 60 == 0 ? i * 7919 % 700000 : 2, i % 60 == 0 ? "J0L" : "L"); break;
    case 1: (void)sprintf(string, "Iword %ld \033", i); break;
    case 2: (void)sprintf(string, "Swith\033"); break;
    case 3: (void)sprintf(string, "FSsome\033other\033"); break;
    case 4: (void)sprintf(string, "%ldL", i % 40 - 20); break;
    default: (void)sprintf(string, "0LK"); break;
    }
}

static void tell_replay(long strings)
{
    struct teco t = {0};
    struct kept kept = {.bytes = malloc((size_t)strings * MOST_LINE + (2 << 20)), .file = -1};
    char *input = malloc(LINES * 60), string[64];
    size_t n = 0;
    for (int line = 0; line < LINES; line++)
        n += (size_t)sprintf(input + n, "line %d of a text, with some words\n", line);
    kept.line = (struct teco_line){.room = kept.bytes, .room_size = 2 << 20};
    if (teco_open(&t, (const uint8_t *)input, n, 0, 0) != 0 || teco_head((const uint8_t *)input, n, 0, 0, &kept.line) != 0)
        exit(1);
    kept.count = kept.line.made;
    run(&t, "Y", &kept);
    for (long i = 0; i < strings; i++) {
        typed(string, i);
        run(&t, string, &kept);
    }
    uint64_t lived = sum_of(&t), sum = 0;
    double least = 0;
    for (int round = 0; round < ROUNDS; round++) {
        struct teco_resumed resumed;
        double begun = now();
        if (teco_resume(&t, kept.bytes, kept.count, &resumed) != 0)
            exit(1);
        double taken = now() - begun;
        least = round == 0 || taken < least ? taken : least;
        sum = sum_of(&t);
    }
    printf("replay ours %.0f %llx\nreplay lived 0 %llx\n", least, (unsigned long long)sum, (unsigned long long)lived);
    teco_close(&t);
    free(kept.bytes);
    free(input);
}

int main(int count, char **words)
{
    if (count != 3)
        return 2;
    tell_scripts(strtol(words[1], NULL, 10));
    tell_replay(strtol(words[2], NULL, 10));
    return 0;
}
