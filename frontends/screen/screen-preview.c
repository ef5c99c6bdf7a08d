/*
 * The copy of the process in which a string is tried. The session of this process isn't touched, so undone strings stay; what takes long
 * doesn't hold up the keys; and time and memory have a bound. The copy stays, and waits for the next string. Where a key comes while it
 * runs, it is ended, and a new one made; so it is before the session itself changes.
 */
#include "screen.h"
#include <errno.h>
#include <poll.h>
#include <stdatomic.h>
#include <stdlib.h>
#include <string.h>
#include <sys/mman.h>
#include <sys/socket.h>
#include <sys/wait.h>
#include <unistd.h>

enum { PATIENCE = 3000 };

/* What both processes see: the copy writes the view while as many were taken as were told, and the other one the request and its text
   while the copy waits. */
static struct shared {
    atomic_uint told, taken;
    struct request request;
    struct view view;
    uint8_t text[LONGEST];
} *shared;

/* The copy's end of the link. */
static int other_end = -1;

static void copy_view(struct view *to, const struct view *from)
{
    memcpy(to, from, offsetof(struct view, bytes));
    memcpy(to->bytes, from->bytes, from->count);
    memcpy(to->marks, from->marks, from->count + 1);
    memcpy(to->old, from->old, from->old_count * sizeof *from->old);
}

bool preview_open(struct preview *preview, struct work *work)
{
    *preview = (struct preview){.work = work, .link = -1};
    preview->seen = calloc(1, sizeof *preview->seen);
    void *at = mmap(NULL, sizeof *shared, PROT_READ | PROT_WRITE, MAP_SHARED | MAP_ANONYMOUS, -1, 0);
    shared = at != MAP_FAILED ? at : NULL;
    return shared != NULL && preview->seen != NULL;
}

void preview_close(struct preview *preview)
{
    preview_end(preview);
    free(preview->seen);
    if (shared != NULL)
        (void)munmap(shared, sizeof *shared);
}

/* Tells a view. One that others follow is left out where the one before isn't taken yet. */
void preview_tell(const struct view *view)
{
    while (atomic_load(&shared->told) != atomic_load(&shared->taken)) {
        if (view->goes_on)
            return;
        (void)nanosleep(&(struct timespec){.tv_nsec = 200000}, NULL);
    }
    copy_view(&shared->view, view);
    atomic_fetch_add(&shared->told, 1);
    if (send(other_end, "v", 1, MSG_NOSIGNAL) != 1)
        _exit(0);
}

bool preview_next(struct request *request)
{
    char byte;
    if (read(other_end, &byte, 1) != 1)
        return false;
    *request = shared->request;
    return true;
}

bool preview_is_awaited(void)
{
    struct pollfd link = {.fd = other_end, .events = POLLIN};
    return poll(&link, 1, 0) != 0;
}

static void close_end(int *place)
{
    if (*place >= 0)
        (void)close(*place);
    *place = -1;
}

void preview_end(struct preview *preview)
{
    close_end(&preview->link);
    preview->is_busy = false;
    if (preview->process <= 0)
        return;
    (void)kill(preview->process, SIGKILL);
    while (waitpid(preview->process, NULL, 0) < 0 && errno == EINTR)
        continue;
    preview->process = 0;
}

/* Makes the copy, which never comes back from here. No signal finds it with the handlers of this process. */
static pid_t make_copy(struct preview *preview)
{
    sigset_t usual;
    if (!tty_block(&usual))
        return -1;
    pid_t process = fork();
    if (process == 0) {
        tty_forget();
        tty_unblock(&usual);
        close_end(&preview->link);
        preview_be_copy(preview->work, shared->text);
        _exit(0);
    }
    tty_unblock(&usual);
    return process;
}

bool preview_prepare(struct preview *preview)
{
    int ends[2];
    if (preview->process > 0 && !preview->is_busy)
        return true;
    preview_end(preview);
    atomic_store(&shared->told, 0);
    atomic_store(&shared->taken, 0);
    if (socketpair(AF_UNIX, SOCK_STREAM, 0, ends) != 0)
        return false;
    preview->link = ends[0];
    other_end = ends[1];
    preview->process = make_copy(preview);
    close_end(&other_end);
    if (preview->process <= 0)
        preview_end(preview);
    return preview->process > 0;
}

bool preview_begin(struct preview *preview, const struct request *request, const uint8_t *text)
{
    (void)clock_gettime(CLOCK_MONOTONIC, &preview->begun);
    if (request->subject != OF_STRING)
        preview_end(preview); /* a string that was tried has dropped the undone ones of the copy */
    if (!preview_prepare(preview))
        return false;
    shared->request = *request;
    if (request->n > 0)
        memcpy(shared->text, text, request->n);
    preview->is_for_strings = request->subject == OF_STRING;
    preview->is_busy = send(preview->link, "r", 1, MSG_NOSIGNAL) == 1;
    if (!preview->is_busy)
        preview_end(preview);
    return preview->is_busy;
}

bool preview_came(struct preview *preview)
{
    char byte;
    if (preview->link < 0 || read(preview->link, &byte, 1) != 1) {
        preview_end(preview);
        return false;
    }
    copy_view(preview->seen, &shared->view);
    atomic_fetch_add(&shared->taken, 1);
    preview->is_busy = preview->seen->goes_on;
    if (!preview->is_for_strings && !preview->is_busy)
        preview_end(preview);
    return true;
}

struct timespec preview_patience(const struct preview *preview)
{
    double left = PATIENCE - since(&preview->begun);
    if (left < 0)
        left = 0;
    return (struct timespec){.tv_sec = (time_t)(left / 1000), .tv_nsec = (long)(left - 1000 * (double)(time_t)(left / 1000)) * 1000000};
}
