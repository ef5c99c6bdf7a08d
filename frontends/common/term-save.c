/* Saving and going on: what an exit would write is written, and the session stays as it is. A copy of the process runs the exit, so nothing
   that is undone is dropped, and no exit comes into the history. */
#include "terminal.h"
#include <errno.h>
#include <stdio.h>
#include <string.h>
#include <sys/wait.h>
#include <unistd.h>

/* The steps of an exit are fewer. */
enum { STEPS = 100 };

/* The copy's side: it runs the exit, and sends the output. */
static void be_copy(struct work *work, int to)
{
    struct told told;
    work_run(work, (const uint8_t *)"EX", 2, STEPS, &(struct teco_stopper){0}, &told);
    _exit(teco_done(&work->session) == 1 && file_put(to, &(struct content){.session = &work->session}) ? 0 : 1);
}

static pid_t make_copy(struct work *work, const int ends[2])
{
    sigset_t usual;
    if (!tty_block(&usual))
        return -1;
    pid_t process = fork();
    if (process == 0) {
        tty_forget();
        tty_unblock(&usual);
        (void)close(ends[0]);
        be_copy(work, ends[1]);
    }
    tty_unblock(&usual);
    return process;
}

/* Takes what the copy sends until it has ended well. */
static bool take_output(struct work *work, struct bytes *output)
{
    int ends[2], status = 1;
    if (pipe(ends) != 0)
        return false;
    pid_t process = make_copy(work, ends);
    (void)close(ends[1]);
    bool is_taken = process > 0 && file_take(ends[0], output) == GOES_ON;
    (void)close(ends[0]);
    while (process > 0 && waitpid(process, &status, 0) < 0 && errno == EINTR)
        continue;
    return is_taken && WIFEXITED(status) && WEXITSTATUS(status) == 0;
}

/* From now on what would be lost is what differs from the output. */
static void take_as_base(struct work *work, const struct bytes *output)
{
    bytes_free(&work->saved);
    work->saved = *output;
    work->is_saved = true;
    (void)teco_place(&work->session, &work->saved_place);
    work_want(work);
}

enum fate work_leave(struct work *work)
{
    return work->is_saved && !work_has_edits(work) ? SAVED : END_OF_COMMANDS;
}

enum fate work_save(struct work *work, char *why, size_t size)
{
    struct bytes output = {0};
    struct content content = {.bytes = &output};
    bool is_ready = take_output(work, &output);
    enum fate fate = is_ready ? work_write_content(work, &content, "F3 once more", why, size) : NO_MEMORY;
    if (!is_ready)
        (void)snprintf(why, size, "not saved: the system refuses memory.");
    if (fate != EXIT) {
        bytes_free(&output);
        return fate;
    }
    take_as_base(work, &output);
    (void)snprintf(why, size, "%s", work->wrote);
    return GOES_ON;
}
