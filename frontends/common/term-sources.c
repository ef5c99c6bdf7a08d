/* The command strings of -f: what the sources in these files stand for, one after another. They are read before the first INPUT. */
#include "terminal.h"
#include <errno.h>
#include <stdio.h>
#include <stdlib.h>
#include <string.h>

/* Whether a file has this name, or the system doesn't tell. */
static bool is_there(const char *name)
{
    struct stat about;
    return stat(name, &about) == 0 || (errno != ENOENT && errno != ENOTDIR);
}

/* The name in a folder, whose own name has n bytes. Null where memory is refused. */
static char *name_in(const char *folder, size_t n, const char *name)
{
    size_t size = n + strlen(name) + 2;
    char *path = malloc(size);
    if (path != NULL)
        (void)snprintf(path, size, "%.*s/%s", (int)n, folder, name);
    return path;
}

/* A name with no slash that isn't there is looked for in the folders of $TECO_LIBRARY: the first name that is there, or else its own. Null
   where memory is refused. */
static char *find(const char *name)
{
    const char *folder = getenv("TECO_LIBRARY");
    bool is_sought = folder != NULL && strchr(name, '/') == NULL && !is_there(name);
    while (is_sought && *folder != '\0') {
        size_t n = strcspn(folder, ":");
        char *path = n > 0 ? name_in(folder, n, name) : NULL;
        if (path != NULL && is_there(path))
            return path;
        free(path);
        folder += n + (folder[n] == ':');
    }
    return strdup(name);
}

/* Adds what a source stands for. GOES_ON, NO_MEMORY, or BAD_SOURCE and where the caret is by which it can't be read. */
static enum fate add_source(const struct bytes *source, struct bytes *strings, struct teco_source *told)
{
    if (!bytes_reserve(strings, source->count + 1))
        return NO_MEMORY;
    const uint8_t *text = source->count > 0 ? source->at : (const uint8_t *)"";
    uint8_t code = teco_source(text, source->count, strings->at + strings->count, source->count, told);
    strings->count += told->made;
    return code == 0 ? GOES_ON : code == TECO_CARET ? BAD_SOURCE : NO_MEMORY;
}

/* The same of a file of this name. */
static enum fate add_file(const char *name, struct bytes *strings, struct teco_source *told)
{
    struct bytes source = {0};
    struct stat about;
    bool is_new;
    enum fate fate = file_read(name, &source, &about, &is_new);
    if (fate == GOES_ON)
        fate = is_new ? NO_INPUT : add_source(&source, strings, told);
    bytes_free(&source);
    return fate;
}

int sources_read(const struct program *program, struct options *options)
{
    int status = -1;
    for (int i = 0; i < options->file_count && status < 0; i++) {
        struct teco_source told;
        char *name = find(options->files[i]);
        enum fate fate = name != NULL ? add_file(name, &options->strings, &told) : NO_MEMORY;
        if (fate == BAD_SOURCE) {
            (void)fprintf(stderr, "%s: %s:%llu:%llu: a caret before what it cannot stand before\n", program->name, name,
                (unsigned long long)told.line, (unsigned long long)told.column);
            status = 3;
        } else if (fate != GOES_ON) {
            status = conclude(program, name, fate);
        }
        free(name);
    }
    return status;
}

const uint8_t *sources_next(const struct bytes *strings, size_t *at, size_t *n)
{
    for (size_t end = *at; end + 1 < strings->count; end++) {
        if (strings->at[end] == ESCAPE && strings->at[end + 1] == ESCAPE) {
            const uint8_t *text = strings->at + *at;
            *n = end + 1 - *at;
            *at = end + 2;
            return text;
        }
    }
    return NULL;
}

bool sources_tell(const struct bytes *strings, size_t at, char *text, size_t size)
{
    bool is_left = false;
    for (size_t i = at; i < strings->count; i++)
        is_left |= !is_filler(strings->at[i]);
    size_t left = strings->count - at;
    if (is_left)
        (void)snprintf(text, size, left == 1 ? "%zu byte of -f was not run" : "%zu bytes of -f were not run", left);
    return is_left;
}
