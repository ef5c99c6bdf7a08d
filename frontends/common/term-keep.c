/* The file that keeps a session: what INPUT had, and a line for each request, which stands there before its answer is shown. So no string that
   was answered is lost, whatever ends the program. It goes away where nothing would be lost. */
#include "terminal.h"
#include <errno.h>
#include <fcntl.h>
#include <stdio.h>
#include <stdlib.h>
#include <string.h>
#include <sys/file.h>
#include <unistd.h>

static const char SUFFIX[] = ".teco-session";

/* How many programs may edit one file at once, and how many sessions of it may be set aside. A head has some bytes more than INPUT; a line
   has no more than three bytes for each of its string, and some more. */
enum { MOST = 9, MOST_ASIDE = 99, MORE = 400 };

/* What a handler takes away, where nothing is lost by that; the file, which a copy of the process doesn't hold; and whether a file of this
   process couldn't be kept. */
static char *volatile unwanted;
static int held = -1;
static bool has_failed;

void keep_leave(void)
{
    if (unwanted != NULL)
        (void)unlink(unwanted);
}

void keep_forget(void)
{
    if (held >= 0)
        (void)close(held);
    held = -1;
}

void keep_want(const struct keeper *keeper, bool is_wanted)
{
    unwanted = is_wanted || keeper->file < 0 ? NULL : keeper->name;
}

bool keep_has_failed(void)
{
    return has_failed;
}

/* The file can't be written any more: editing goes on. What it has so far stays. */
static void fail(struct keeper *keeper, int reason)
{
    has_failed = keeper->has_failed = true;
    (void)snprintf(keeper->note, sizeof keeper->note, "no session file can be kept: %s", strerror(reason != 0 ? reason : EIO));
}

/* A name of two parts and a number, if it isn't the first. Null where memory is refused. */
static char *name_of(const char *front, const char *back, int number)
{
    size_t size = strlen(front) + strlen(back) + 4;
    char *name = malloc(size);
    if (name != NULL && number > 1)
        (void)snprintf(name, size, "%s%s%d", front, back, number);
    else if (name != NULL)
        (void)snprintf(name, size, "%s%s", front, back);
    return name;
}

/* The folder for files of programs that can't keep them elsewhere, with all folders on the way to it. Null where there is none. */
static char *state_folder(void)
{
    const char *state = getenv("XDG_STATE_HOME"), *home = getenv("HOME");
    bool is_given = state != NULL && state[0] == '/';
    if (!is_given && home == NULL)
        return NULL;
    char *folder = name_of(is_given ? state : home, is_given ? "/teco/" : "/.local/state/teco/", 1);
    for (char *slash = folder != NULL ? strchr(folder + 1, '/') : NULL; slash != NULL; slash = strchr(slash + 1, '/')) {
        *slash = '\0';
        (void)mkdir(folder, 0700);
        *slash = '/';
    }
    return folder;
}

/* The path of INPUT, also where it isn't there yet. Null where memory is refused. */
static char *path_of(const char *input)
{
    char *path = realpath(input, NULL), *here = path == NULL && input[0] != '/' ? getcwd(NULL, 0) : NULL;
    char *front = here != NULL ? name_of(here, "/", 1) : NULL;
    if (path == NULL)
        path = name_of(front != NULL ? front : "", input, 1);
    free(front);
    free(here);
    return path;
}

/* The name in that folder which a suffix makes whole: the path of INPUT, with a % for each slash. */
static char *name_in_state(const char *input)
{
    char *folder = state_folder(), *path = path_of(input);
    for (char *at = path; at != NULL && *at != '\0'; at++)
        *at = *at == '/' ? '%' : *at;
    char *name = folder != NULL && path != NULL ? name_of(folder, path, 1) : NULL;
    free(folder);
    free(path);
    return name;
}

/* Whether a file that is open is ours, and still has this name. */
static bool is_own(int file, const char *name)
{
    struct stat there, opened;
    return fstat(file, &opened) == 0 && stat(name, &there) == 0 && there.st_dev == opened.st_dev && there.st_ino == opened.st_ino
        && S_ISREG(opened.st_mode) && opened.st_uid == geteuid();
}

/* Opens a file of this name, and holds it. -1 where another process holds it, or it is another's, which EWOULDBLOCK tells; or where it can't
   be opened. */
static int open_held(const char *name, int flags)
{
    int file = open(name, O_RDWR | O_APPEND | O_CLOEXEC | O_NOFOLLOW | flags, 0600);
    if (file < 0)
        return -1;
    if ((flock(file, LOCK_EX | LOCK_NB) == 0 || errno != EWOULDBLOCK) && is_own(file, name))
        return file;
    (void)close(file);
    errno = EWOULDBLOCK;
    return -1;
}

/* Opens the first file of these names that no other process holds; what can't be opened is looked over if that is for this reason. */
static bool open_one(struct keeper *keeper, const char *front, int flags, int looked_over)
{
    for (int number = 1; number <= MOST; number++) {
        char *name = name_of(front, SUFFIX, number);
        keeper->file = name != NULL ? open_held(name, flags) : -1;
        if (keeper->file >= 0) {
            keeper->name = name;
            return true;
        }
        free(name);
        if (errno != EWOULDBLOCK && errno != looked_over)
            return false;
        keeper->is_shared |= errno == EWOULDBLOCK;
    }
    return false;
}

/* A session that was left comes first, whatever its number; and where there is none, a new file is made. */
static bool open_any(struct keeper *keeper, const char *front)
{
    return open_one(keeper, front, 0, ENOENT) || open_one(keeper, front, O_CREAT, EWOULDBLOCK);
}

void keep_open(struct keeper *keeper, const char *input, bool is_beside)
{
    *keeper = (struct keeper){.file = -1};
    bool is_open = is_beside && open_any(keeper, input);
    int why = errno;
    char *name = is_open ? NULL : name_in_state(input);
    if (!is_open && (name == NULL || !open_any(keeper, name)))
        fail(keeper, is_beside ? why : errno);
    else if (keeper->is_shared)
        (void)snprintf(keeper->note, sizeof keeper->note, "another program edits %s: this session is kept in %s", input, keeper->name);
    free(name);
    held = keeper->file;
}

/* Whether lines are still put into the file. */
static bool is_kept(const struct keeper *keeper)
{
    return keeper->file >= 0 && !keeper->has_failed;
}

/* Finds room for a line of so many bytes. */
static bool find_room(struct keeper *keeper, size_t n)
{
    keeper->room.count = 0;
    bool has_room = bytes_reserve(&keeper->room, n);
    keeper->line.room = keeper->room.at;
    keeper->line.room_size = keeper->room.room;
    return has_room;
}

/* Writes the line that is in the room, if it was made. */
static void write_line(struct keeper *keeper, bool is_made)
{
    struct bytes line = {.at = keeper->line.room, .count = keeper->line.made};
    errno = ENOMEM;
    if (!is_made || line.count > keeper->line.room_size || !file_put(keeper->file, &(struct content){.bytes = &line}))
        fail(keeper, errno);
}

void keep_begin(struct keeper *keeper, bool is_wide, const uint8_t *input, size_t n, size_t lines, size_t depth)
{
    uint8_t (*head)(const uint8_t *, size_t, size_t, size_t, struct teco_line *) = is_wide ? teco_head_wide : teco_head;
    if (!is_kept(keeper))
        return;
    if (ftruncate(keeper->file, 0) != 0)
        fail(keeper, errno);
    else
        write_line(keeper, find_room(keeper, n + MORE) && head(input, n, lines, depth, &keeper->line) == 0);
    bytes_free(&keeper->room);
}

void keep_go_on(struct keeper *keeper, const struct teco_resumed *resumed)
{
    memcpy(keeper->line.check, resumed->check, sizeof resumed->check);
    if (is_kept(keeper) && ftruncate(keeper->file, (off_t)resumed->good) != 0)
        fail(keeper, errno);
}

void keep_add(struct keeper *keeper, uint8_t kind, uint64_t steps, const uint8_t *text, size_t n)
{
    if (!is_kept(keeper))
        return;
    keeper->line.kind = kind;
    keeper->line.steps = steps;
    write_line(keeper, find_room(keeper, 3 * n + MORE) && teco_record(text, n, &keeper->line) == 0);
}

void keep_sync(struct keeper *keeper)
{
    if (is_kept(keeper) && fdatasync(keeper->file) != 0)
        fail(keeper, errno);
}

enum fate keep_read(const struct keeper *keeper, struct bytes *to, time_t *when)
{
    struct stat about;
    if (keeper->file < 0)
        return GOES_ON;
    if (fstat(keeper->file, &about) != 0)
        return NO_INPUT;
    *when = about.st_mtime;
    return file_take(keeper->file, to);
}

const char *keep_aside(struct keeper *keeper)
{
    struct stat there;
    for (int number = 1; keeper->aside == NULL && number <= MOST_ASIDE; number++) {
        char *name = name_of(keeper->name, "~", number);
        if (name != NULL && lstat(name, &there) != 0)
            keeper->aside = name;
        else
            free(name);
    }
    return keeper->aside != NULL ? keeper->aside : keeper->name;
}

bool keep_set_aside(struct keeper *keeper)
{
    errno = EEXIST;
    bool is_aside = keep_aside(keeper) != keeper->name && rename(keeper->name, keeper->aside) == 0;
    int why = errno;
    keep_forget();
    keeper->file = held = is_aside ? open_held(keeper->name, O_CREAT) : -1;
    if (keeper->file < 0)
        fail(keeper, is_aside ? errno : why);
    return is_aside;
}

void keep_end(struct keeper *keeper, bool is_dropped)
{
    if (keeper->file >= 0 && (is_dropped || unwanted != NULL))
        (void)unlink(keeper->name);
    unwanted = NULL;
    keep_forget();
    free(keeper->name);
    free(keeper->aside);
    bytes_free(&keeper->room);
    *keeper = (struct keeper){.file = -1};
}

bool keep_tells(struct keeper *keeper, char *text, size_t size)
{
    if (keeper->note[0] == '\0')
        return false;
    (void)snprintf(text, size, "%s", keeper->note);
    keeper->note[0] = '\0';
    return true;
}
