/* Reading keys: those that come together, and those that come while a string runs. A thread reads these and keeps them in their order, and
   at Ctrl-C it breaks the string off. */
#include "terminal.h"
#include <errno.h>
#include <poll.h>
#include <pthread.h>
#include <stdatomic.h>
#include <string.h>
#include <sys/select.h>
#include <unistd.h>

/* The most that may lie between two reads of what comes together, and the most bytes that are taken as one. */
const struct timespec TTY_GAP = {.tv_nsec = 10000000}, TTY_PAIR_GAP = {.tv_nsec = 50000000};
enum { PIECE = 4096, TOGETHER = 1 << 20 };

/* Keys that came while a string ran, and how many of them were taken since; and whether what comes next is pasted. */
static struct bytes waiting;
static size_t taken;
static struct keys coming;

/* Whether a stop was asked for since the keys are watched. */
static atomic_bool is_asked;

/* The thread reads while `is_reading`, until there is a byte in the pipe. All of this is under the lock. */
static struct watch {
    pthread_mutex_t lock;
    pthread_cond_t has_begun, has_ended;
    const struct teco_stopper *asks; /* whom it asks while a string runs, or null */
    uint64_t runs;                   /* how many strings ran till now */
    int read_end, write_end;
    bool is_made, is_reading;
} watch = {.lock = PTHREAD_MUTEX_INITIALIZER, .has_begun = PTHREAD_COND_INITIALIZER, .has_ended = PTHREAD_COND_INITIALIZER};

/* No resume is missed: the signals come inside pselect alone. */
static int select_in(fd_set *in, int last, const struct timespec *most, bool *is_resumed)
{
    sigset_t stops, usual;
    int ready = -1;
    if (sigemptyset(&stops) != 0 || sigaddset(&stops, SIGTSTP) != 0 || sigaddset(&stops, SIGCONT) != 0 || sigaddset(&stops, SIGWINCH) != 0
        || pthread_sigmask(SIG_BLOCK, &stops, &usual) != 0)
        return -1;
    errno = EINTR;
    if (!tty_is_other)
        ready = pselect(last + 1, in, NULL, NULL, most, &usual);
    *is_resumed = ready < 0 && errno == EINTR;
    return pthread_sigmask(SIG_SETMASK, &usual, NULL) == 0 ? ready : -1;
}

enum event tty_wait(int other, const struct timespec *most)
{
    fd_set in;
    bool is_resumed = false;
    if (taken < waiting.count && !tty_is_other)
        return CAME;
    FD_ZERO(&in);
    FD_SET(STDIN_FILENO, &in);
    if (other >= 0)
        FD_SET(other, &in);
    int ready = select_in(&in, other > STDIN_FILENO ? other : STDIN_FILENO, most, &is_resumed);
    if (ready <= 0)
        return ready == 0 ? LATE : is_resumed ? RESUMED : FAILED;
    return FD_ISSET(STDIN_FILENO, &in) ? CAME : TOLD;
}

void tty_resume(void)
{
    tty_is_other = 0;
    coming = (struct keys){0};
}

void tty_drop(void)
{
    taken = waiting.count = 0;
    coming = (struct keys){0};
}

/* Keys that wait come first. */
static size_t take_waiting(uint8_t *to, size_t most)
{
    size_t n = waiting.count - taken < most ? waiting.count - taken : most;
    if (n > 0)
        memcpy(to, waiting.at + taken, n);
    taken += n;
    if (taken == waiting.count)
        taken = waiting.count = 0;
    return n;
}

/* Reads a piece, and follows the marks of pastes in it. Tells of each byte whether it is a key, if that is wanted. */
static ssize_t read_piece(uint8_t *piece, bool *are_keys)
{
    ssize_t n = read(STDIN_FILENO, piece, PIECE);
    for (ssize_t i = 0; i < n; i++) {
        bool is_key = keys_follow(&coming, piece[i]);
        if (are_keys != NULL)
            are_keys[i] = is_key;
    }
    return n;
}

enum event tty_take(struct bytes *together)
{
    uint8_t piece[PIECE];
    ssize_t n = (ssize_t)take_waiting(piece, sizeof piece);
    if (n == 0)
        n = read_piece(piece, NULL);
    if (n < 0)
        return errno == EAGAIN || errno == EINTR ? CAME : FAILED;
    if (n == 0)
        return ENDED;
    return bytes_add(together, piece, (size_t)n) ? CAME : FAILED;
}

enum event tty_read(struct bytes *together)
{
    together->count = 0;
    enum event event = tty_wait(-1, NULL);
    return event == CAME ? tty_take_all(together) : event;
}

enum event tty_take_all(struct bytes *together)
{
    enum event event = tty_take(together);
    while (event == CAME && together->count < TOGETHER && tty_wait(-1, &TTY_GAP) == CAME)
        event = tty_take(together);
    return together->count > 0 ? CAME : event;
}

/* From here on the thread does it, and nobody else reads meanwhile. */

/* Keeps a piece of what came, and asks if a key in it is Ctrl-C, or if no more will come. False if no more can be kept. */
static bool keep_piece(const struct teco_stopper *asks)
{
    uint8_t piece[PIECE];
    bool are_keys[PIECE], is_stop = false;
    if (!bytes_reserve(&waiting, PIECE))
        return false;
    ssize_t n = read_piece(piece, are_keys);
    for (ssize_t i = 0; i < n; i++) {
        if (are_keys[i] && piece[i] == CONTROL('C'))
            is_stop = true;
        else
            waiting.at[waiting.count++] = piece[i];
    }
    bool has_ended = n == 0 || (n < 0 && errno != EAGAIN && errno != EINTR);
    if (is_stop || has_ended) {
        atomic_store(&is_asked, true);
        (void)teco_stop(asks, 1);
    }
    return !has_ended;
}

/* Keeps what comes, until there is a byte in the pipe. */
static void keep_all(const struct teco_stopper *asks)
{
    struct pollfd from[] = {{.fd = STDIN_FILENO, .events = POLLIN}, {.fd = watch.read_end, .events = POLLIN}};
    bool goes_on = true;
    while (goes_on) {
        int ready = poll(from, 2, -1);
        if (ready < 0)
            goes_on = errno == EINTR;
        else if (from[1].revents != 0)
            goes_on = false;
        else if (from[0].revents != 0)
            goes_on = keep_piece(asks);
    }
}

/* A fault is handled on whatever thread it comes, and a read of a job in the background stops it. No other signal comes here. */
static void unblock_own(void)
{
    static const int OWN[] = {SIGTTIN, SIGSEGV, SIGBUS, SIGFPE, SIGILL, SIGABRT};
    sigset_t own;
    (void)sigemptyset(&own);
    for (size_t i = 0; i < sizeof OWN / sizeof *OWN; i++)
        (void)sigaddset(&own, OWN[i]);
    (void)pthread_sigmask(SIG_UNBLOCK, &own, NULL);
}

/* Waits until a string has run for a moment, and tells whom to ask. Most strings are over by then, and cost next to nothing: then nobody. */
static const struct teco_stopper *await_run(void)
{
    while (watch.asks == NULL)
        (void)pthread_cond_wait(&watch.has_begun, &watch.lock);
    uint64_t run = watch.runs;
    (void)pthread_mutex_unlock(&watch.lock);
    (void)nanosleep(&TTY_GAP, NULL);
    (void)pthread_mutex_lock(&watch.lock);
    return watch.runs == run ? watch.asks : NULL;
}

static void *watch_runs(void *none)
{
    unblock_own();
    (void)pthread_mutex_lock(&watch.lock);
    for (;;) {
        const struct teco_stopper *asks = await_run();
        if (asks == NULL)
            continue;
        watch.is_reading = true;
        (void)pthread_mutex_unlock(&watch.lock);
        keep_all(asks);
        (void)pthread_mutex_lock(&watch.lock);
        watch.is_reading = false;
        (void)pthread_cond_signal(&watch.has_ended);
    }
    return none;
}

/* Makes the thread, if there is none. */
static bool make_watch(void)
{
    int ends[2];
    sigset_t usual;
    pthread_t thread;
    if (watch.is_made)
        return true;
    if (pipe(ends) != 0)
        return false;
    watch.read_end = ends[0];
    watch.write_end = ends[1];
    if (tty_block(&usual)) {
        watch.is_made = pthread_create(&thread, NULL, watch_runs, NULL) == 0 && pthread_detach(thread) == 0;
        tty_unblock(&usual);
    }
    if (!watch.is_made) {
        (void)close(ends[0]);
        (void)close(ends[1]);
    }
    return watch.is_made;
}

void tty_watch(const struct teco_stopper *asks)
{
    atomic_store(&is_asked, false);
    if (!make_watch())
        return;
    (void)pthread_mutex_lock(&watch.lock);
    watch.asks = asks;
    watch.runs++;
    (void)pthread_cond_signal(&watch.has_begun);
    (void)pthread_mutex_unlock(&watch.lock);
}

void tty_unwatch(void)
{
    uint8_t byte = 0;
    (void)pthread_mutex_lock(&watch.lock);
    watch.asks = NULL;
    bool is_told = watch.is_reading && write(watch.write_end, &byte, 1) == 1;
    while (is_told && watch.is_reading)
        (void)pthread_cond_wait(&watch.has_ended, &watch.lock);
    bool is_taken = is_told && read(watch.read_end, &byte, 1) == 1;
    (void)is_taken;
    (void)pthread_mutex_unlock(&watch.lock);
}

bool tty_is_broken_off(void)
{
    return atomic_load(&is_asked);
}
