/* Linked with --wrap=teco_text and --wrap=teco_lines: each notes how many bytes of the text it read, in the file that READS names. */
#include "teco.h"
#include <stdio.h>
#include <stdlib.h>

uint8_t __real_teco_text(const struct teco *t, size_t from, uint8_t *room, size_t size, size_t *length);
uint8_t __wrap_teco_text(const struct teco *t, size_t from, uint8_t *room, size_t size, size_t *length);
uint8_t __real_teco_lines(const struct teco *t, size_t from, size_t to, size_t *count);
uint8_t __wrap_teco_lines(const struct teco *t, size_t from, size_t to, size_t *count);

static void note(size_t bytes)
{
    FILE *file = fopen(getenv("READS"), "a");
    if (file == NULL || fprintf(file, "%zu\n", bytes) < 0 || fclose(file) != 0)
        abort();
}

uint8_t __wrap_teco_text(const struct teco *t, size_t from, uint8_t *room, size_t size, size_t *length)
{
    uint8_t code = __real_teco_text(t, from, room, size, length);
    if (code == 0)
        note(*length < size ? *length : size);
    return code;
}

uint8_t __wrap_teco_lines(const struct teco *t, size_t from, size_t to, size_t *count)
{
    note(to - from);
    return __real_teco_lines(t, from, to, count);
}
