/* Times calls of the library, in nanoseconds a call: a million J, an undo with its redo, a look; and a string of a million changes. */
#include "teco.h"
#include <stdio.h>
#include <string.h>
#include <time.h>

enum { CALLS = 1000000 };

static double now(void)
{
    struct timespec t;
    clock_gettime(CLOCK_MONOTONIC, &t);
    return (double)t.tv_sec * 1e9 + (double)t.tv_nsec;
}

static void run(struct teco *t, const char *string)
{
    uint8_t room[64];
    struct teco_run run = {.limit = 10000000, .room = room, .room_size = sizeof room, .frames = TECO_NO_FRAMES};
    teco_run(t, (const uint8_t *)string, strlen(string), &run);
}

int main(void)
{
    struct teco t = {0};
    size_t pointer;
    teco_open(&t, (const uint8_t *)"", 0, 0, 100);
    double start = now();
    for (int i = 0; i < CALLS; i++)
        run(&t, "J");
    double ran = now();
    for (int i = 0; i < CALLS; i++) {
        teco_undo(&t);
        teco_redo(&t);
    }
    double turned = now();
    for (int i = 0; i < CALLS; i++)
        teco_pointer(&t, &pointer);
    double looked = now();
    printf("J by the library         %.1f ns\n", (ran - start) / CALLS);
    printf("an undo with its redo    %.1f ns\n", (turned - ran) / CALLS);
    printf("a look at the pointer    %.1f ns\n", (looked - turned) / CALLS);
    teco_close(&t);
    teco_open(&t, (const uint8_t *)"", 0, 0, 0);
    start = now();
    run(&t, "1000000<Ix\033>");
    ran = now();
    teco_undo(&t);
    turned = now();
    printf("a string of 1000000 changes: run %.1f ms, undo %.1f ms\n", (ran - start) / 1e6, (turned - ran) / 1e6);
    teco_close(&t);
    return 0;
}
