/* Reading INPUT, and writing the output as teco does: to a draft beside the file, which takes its name. */
#include "terminal.h"
#include <errno.h>
#include <fcntl.h>
#include <poll.h>
#include <stdio.h>
#include <stdlib.h>
#include <string.h>
#include <sys/stat.h>
#include <unistd.h>

/* The milliseconds for which a pipe is waited for, before Ctrl-C is looked for again. */
enum { PIECE = 65536, DRAFTS = 100, MOMENT = 20 };

/* The draft that is being filled, which a handler takes away. */
static char *volatile open_draft;

void file_drop_draft(void)
{
    if (open_draft != NULL)
        (void)unlink(open_draft);
}

bool bytes_reserve(struct bytes *bytes, size_t n)
{
    if (n <= bytes->room - bytes->count)
        return true;
    size_t room = bytes->count + n > 2 * bytes->room ? bytes->count + n : 2 * bytes->room;
    uint8_t *at = realloc(bytes->at, room);
    if (at == NULL)
        return false;
    bytes->at = at;
    bytes->room = room;
    return true;
}

bool bytes_add(struct bytes *bytes, const void *from, size_t n)
{
    if (!bytes_reserve(bytes, n))
        return false;
    if (n > 0)
        memcpy(bytes->at + bytes->count, from, n);
    bytes->count += n;
    return true;
}

void bytes_free(struct bytes *bytes)
{
    free(bytes->at);
    *bytes = (struct bytes){0};
}

enum fate file_take(int file, struct bytes *to)
{
    static uint8_t piece[PIECE];
    ssize_t n;
    while ((n = read(file, piece, sizeof piece)) > 0 || (n < 0 && errno == EINTR)) {
        if (n < 0)
            continue;
        if ((size_t)n > TECO_INPUT_LIMIT - to->count)
            return LARGE_INPUT;
        if (!bytes_add(to, piece, (size_t)n))
            return NO_MEMORY;
    }
    return n == 0 ? GOES_ON : NO_INPUT;
}

/* Whether a file of this name could be made: its folder is there. */
static bool has_folder(const char *name)
{
    struct stat about;
    const char *slash = strrchr(name, '/');
    char *folder = slash == NULL ? NULL : strndup(name, (size_t)(slash - name) + 1);
    bool has = slash == NULL ? name[0] != '\0' : slash[1] != '\0' && folder != NULL && stat(folder, &about) == 0;
    free(folder);
    return has;
}

enum fate file_read(const char *name, struct bytes *to, struct stat *about, bool *is_new)
{
    int file = open(name, O_RDONLY | O_CLOEXEC);
    *is_new = file < 0 && errno == ENOENT && has_folder(name);
    if (file < 0)
        return *is_new ? GOES_ON : NO_INPUT;
    enum fate fate = fstat(file, about) == 0 ? file_take(file, to) : NO_INPUT;
    if (close(file) != 0 && fate == GOES_ON)
        fate = NO_INPUT;
    return fate;
}

/* A link under /dev or /proc leads to an open file, which keeps what it has. */
static bool is_open_file(const char *name)
{
    return strncmp(name, "/dev/", 5) == 0 || strncmp(name, "/proc/", 6) == 0;
}

bool file_is_replaced(const char *name, struct stat *there)
{
    struct stat about;
    bool is_kept = lstat(name, &about) == 0 && S_ISLNK(about.st_mode) && is_open_file(name);
    return !is_kept && stat(name, there) == 0 && S_ISREG(there->st_mode);
}

bool file_is_same(const struct stat *one, const struct stat *other)
{
    return one->st_dev == other->st_dev && one->st_ino == other->st_ino && one->st_size == other->st_size
        && one->st_mtim.tv_sec == other->st_mtim.tv_sec && one->st_mtim.tv_nsec == other->st_mtim.tv_nsec;
}

/* Closes a file. Where that fails, or it failed before, errno says why. */
static bool end_file(int file, bool has_worked)
{
    int why = errno;
    bool is_closed = close(file) == 0;
    if (!has_worked)
        errno = why;
    return has_worked && is_closed;
}

/* Whether a call that failed is to be made again: it was interrupted, or a pipe is waited for, until Ctrl-C breaks that off. */
static bool is_awaited(int file, int reason)
{
    int why = errno;
    if (why == reason) {
        (void)poll(&(struct pollfd){.fd = file, .events = POLLOUT}, 1, MOMENT);
        errno = ECANCELED;
    }
    return why == EINTR || (why == reason && !tty_is_broken_off());
}

static bool write_all(int file, const uint8_t *bytes, size_t n)
{
    while (n > 0) {
        ssize_t written = write(file, bytes, n);
        if (written < 0 && !is_awaited(file, EAGAIN))
            return false;
        bytes += written < 0 ? 0 : written;
        n -= written < 0 ? 0 : (size_t)written;
    }
    return true;
}

/* Looks at a piece of what is written, from a place on, and tells how much is left there. */
static bool look_at(const struct content *content, size_t from, uint8_t *piece, size_t *left)
{
    if (content->session != NULL)
        return teco_output(content->session, from, piece, PIECE, left) == 0;
    *left = content->bytes->count - from;
    if (*left > 0)
        memcpy(piece, content->bytes->at + from, *left < PIECE ? *left : PIECE);
    return true;
}

bool file_put(int file, const struct content *content)
{
    static uint8_t piece[PIECE];
    size_t from = 0, left;
    do {
        if (!look_at(content, from, piece, &left))
            return false;
        size_t n = left < sizeof piece ? left : sizeof piece;
        if (!write_all(file, piece, n))
            return false;
        from += n;
    } while (left > sizeof piece);
    return true;
}

/* Where nobody reads a pipe yet, its reader is waited for. */
static bool append(const char *name, const struct content *content)
{
    struct stat about;
    bool is_pipe = stat(name, &about) == 0 && S_ISFIFO(about.st_mode);
    int flags = O_WRONLY | O_APPEND | O_CREAT | O_CLOEXEC | (is_pipe ? O_NONBLOCK : 0), file;
    do
        file = open(name, flags, 0666);
    while (file < 0 && is_awaited(-1, is_pipe ? ENXIO : EINTR));
    if (file < 0)
        return false;
    return end_file(file, file_put(file, content));
}

/* The group, the owner and the permissions of the file whose place it takes, as far as the system lets us. */
static void make_like(int file, const struct stat *old)
{
    bool group = fchown(file, (uid_t)-1, old->st_gid) == 0;
    bool owner = fchown(file, old->st_uid, (gid_t)-1) == 0;
    bool permissions = fchmod(file, old->st_mode & 07777) == 0;
    (void)(group && owner && permissions);
}

/* Makes a new file in the folder of this one, whose name is then the draft's. -1 where it can't be made. */
static int make_draft(const char *name, char *draft, size_t size, mode_t mode)
{
    const char *slash = strrchr(name, '/');
    int folder = slash == NULL ? 0 : (int)(slash + 1 - name);
    int file = -1;
    sigset_t usual;
    bool is_blocked = tty_block(&usual);
    errno = EEXIST;
    for (long number = getpid(), end = number + DRAFTS; file < 0 && errno == EEXIST && number < end; number++) {
        (void)snprintf(draft, size, "%.*s.teco-%ld", folder, name, number);
        if (strcmp(draft, name) == 0)
            strcat(draft, "-");
        file = open(draft, O_WRONLY | O_CREAT | O_EXCL | O_CLOEXEC, mode);
    }
    open_draft = file >= 0 ? draft : NULL;
    if (is_blocked)
        tty_unblock(&usual);
    return file;
}

/* Fills the draft, waits until it outlasts a crash, and gives it the file's name. Where that fails, it is removed. */
static bool fill_draft(int file, const char *draft, const char *name, const struct stat *old, const struct content *content)
{
    bool written = file_put(file, content);
    if (written && old != NULL)
        make_like(file, old);
    written = end_file(file, written && fsync(file) == 0);
    if (written && rename(draft, name) == 0)
        return true;
    int why = errno;
    (void)unlink(draft);
    errno = why;
    return false;
}

/* Replaces the file that `old` tells of, or makes a new one where that is null. */
static enum fate replace(const char *name, const struct stat *old, const struct content *content)
{
    size_t size = strlen(name) + sizeof ".teco--" + 20;
    char *draft = malloc(size);
    if (draft == NULL)
        return NO_MEMORY;
    int file = make_draft(name, draft, size, old == NULL ? 0666 : 0600);
    bool written = file >= 0 && fill_draft(file, draft, name, old, content);
    open_draft = NULL;
    free(draft);
    return written ? EXIT : NO_OUTPUT;
}

/* Writes to what is at the end of a path without links: a file that may be written is replaced, and all else gets the output. */
static enum fate write_over(const char *path, const struct content *content)
{
    struct stat old;
    if (stat(path, &old) != 0)
        return NO_OUTPUT;
    if (!S_ISREG(old.st_mode))
        return append(path, content) ? EXIT : NO_OUTPUT;
    int file = open(path, O_WRONLY | O_APPEND | O_CLOEXEC);
    if (file < 0 || close(file) != 0)
        return NO_OUTPUT;
    return replace(path, &old, content);
}

/* The output goes through a link that leads to an open file, and through one that leads nowhere yet, which makes a file there. */
enum fate file_write(const char *name, const struct content *content)
{
    struct stat about;
    bool is_there = lstat(name, &about) == 0;
    if (!is_there)
        return errno == ENOENT ? replace(name, NULL, content) : NO_OUTPUT;
    if (!S_ISLNK(about.st_mode))
        return write_over(name, content);
    char *path = is_open_file(name) ? NULL : realpath(name, NULL);
    enum fate fate = NO_OUTPUT;
    if (path != NULL)
        fate = write_over(path, content);
    else if (is_open_file(name) || errno == ENOENT)
        fate = append(name, content) ? EXIT : NO_OUTPUT;
    free(path);
    return fate;
}
