/* Edits a line by command strings, undoes one, and prints the buffer after each call. */
#include "teco.h"
#include <stdio.h>
#include <string.h>

static void show(const struct teco *t, const char *call, int answer)
{
    uint8_t room[80];
    size_t length = 0, pointer = 0;
    teco_text(t, 0, room, sizeof room, &length);
    teco_pointer(t, &pointer);
    printf("%-22s answers %d, leaves \"%.*s\" with the pointer at %zu\n", call, answer, (int)length, (const char *)room, pointer);
}

/* In a string `$` stands for ESC. */
static void run(struct teco *t, const char *string)
{
    uint8_t text[80], room[80];
    size_t n = strlen(string);
    struct teco_run run = {.limit = 1000000, .room = room, .room_size = sizeof room, .frames = TECO_NO_FRAMES};
    for (size_t i = 0; i < n; i++)
        text[i] = string[i] == '$' ? 27 : (uint8_t)string[i];
    int answer = teco_run(t, text, n, &run);
    show(t, string, answer);
    if (run.made > 0)
        printf("    it typed %.*s", (int)run.made, (const char *)room);
}

int main(void)
{
    struct teco t = {0};
    if (teco_open(&t, (const uint8_t *)"a cat sat", 9, 0, 0) != 0)
        return 1;
    run(&t, "Y");
    run(&t, "FScat$dog$");
    run(&t, "ZJI here$Z=");
    run(&t, "J5DFSfrog$toad$");
    show(&t, "undo", teco_undo(&t));
    show(&t, "undo", teco_undo(&t));
    show(&t, "redo", teco_redo(&t));
    teco_close(&t);
    return 0;
}
