/* Runs macros as deep as they go, in a thread with so many KB of stack. Prints the codes by which they end: of a macro that calls itself,
 * and of one that does so 32 times within 60 blocks each, and then passes over 60 blocks. */
#include "teco.h"
#include <pthread.h>
#include <stdio.h>
#include <stdlib.h>
#include <string.h>

struct deep {
    char string[512];
    size_t size;
    size_t calls;
    int code;
};

static void put(struct deep *deep, const char *mark, int times)
{
    for (; times > 0; times--) {
        memcpy(deep->string + deep->size, mark, strlen(mark));
        deep->size += strlen(mark);
    }
}

static void *run(void *answer)
{
    struct deep *deep = answer;
    const uint8_t *string = (const uint8_t *)deep->string;
    struct teco t = {0};
    uint8_t room[16];
    struct teco_run run = {.limit = 1000000, .room = room, .room_size = sizeof room, .frames = TECO_NO_FRAMES};
    teco_open(&t, (const uint8_t *)"", 0, 0, 0);
    int code = teco_run(&t, string, deep->size, &run);
    if (run.calls == deep->calls)
        deep->code = code;
    teco_undo(&t);
    teco_close(&t);
    return NULL;
}

static int ends_by(struct deep *deep, size_t stack)
{
    pthread_attr_t attr;
    pthread_t thread;
    pthread_attr_init(&attr);
    if (pthread_attr_setstacksize(&attr, stack) != 0 || pthread_create(&thread, &attr, run, deep) != 0 || pthread_join(thread, NULL) != 0)
        return -1;
    return deep->code;
}

int main(int count, char **words)
{
    if (count != 2)
        return 2;
    size_t stack = (size_t)atoi(words[1]) * 1024;
    struct deep itself = {.calls = 32, .code = -1};
    put(&itself, "@^UA/Ix\033MA/MA", 1);
    printf("%d\n", ends_by(&itself, stack));
    struct deep blocks = {.code = -1};
    put(&blocks, "0UB@^UA/%B-31\"G", 1);
    put(&blocks, "(", 16);
    put(&blocks, "1", 1);
    put(&blocks, ")", 16);
    put(&blocks, "UCJ:@S+h+UC1<0;", 1);
    put(&blocks, "<", 60);
    put(&blocks, ">", 60);
    put(&blocks, ">|", 1);
    put(&blocks, "1<", 60);
    put(&blocks, "MA", 1);
    put(&blocks, ">", 60);
    put(&blocks, "'/MA", 1);
    printf("%d\n", ends_by(&blocks, stack));
    return 0;
}
