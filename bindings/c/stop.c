/* Runs a string that has no end. Another thread breaks it off, and an undo takes it back. */
#define _POSIX_C_SOURCE 200809L
#include "teco.h"
#include <pthread.h>
#include <stdio.h>
#include <time.h>

/* What the thread does that waits for a person, or for a clock. */
static void *ask(void *stopper)
{
    struct timespec tenth = {.tv_nsec = 100000000};
    (void)nanosleep(&tenth, NULL);
    (void)teco_stop(stopper, 1);
    return NULL;
}

static void show(const struct teco *t, const char *when)
{
    uint8_t room[80];
    size_t length = 0;
    teco_text(t, 0, room, sizeof room, &length);
    printf("%s: \"%.*s\"\n", when, (int)length, (const char *)room);
}

/* Runs a string of two inserts and a loop that goes on for ever. */
static void run_and_break_off(struct teco *t, struct teco_run *run, struct teco_stopper *there)
{
    static const uint8_t TEXT[] = "Ia cat\33I sat\33<>";
    pthread_t thread;
    if (pthread_create(&thread, NULL, ask, there) != 0)
        return;
    uint8_t code = teco_run(t, TEXT, sizeof TEXT - 1, run);
    (void)pthread_join(thread, NULL);
    (void)teco_stop(there, 0);
    if (code == TECO_LIM && run->steps < run->limit)
        printf("broken off %s the loop\n", run->at >= 13 ? "inside of" : "before");
}

int main(void)
{
    struct teco t = {0};
    struct teco_stopper there = {0};
    uint8_t room[80];
    struct teco_run run = {.limit = 1000000000, .room = room, .room_size = sizeof room, .frames = TECO_NO_FRAMES};
    if (teco_open(&t, (const uint8_t *)"", 0, 0, 0) != 0 || teco_stopper_open(&run.stopper, &there) != 0)
        return 1;
    run_and_break_off(&t, &run, &there);
    show(&t, "kept");
    teco_rewind(&t, 1);
    show(&t, "after its first step");
    teco_undo(&t);
    show(&t, "undone");
    teco_stopper_close(&run.stopper);
    teco_stopper_close(&there);
    teco_close(&t);
    return 0;
}
