/* The terminal: set for keys, and always given back. */
#include "terminal.h"
#include <errno.h>
#include <poll.h>
#include <pthread.h>
#include <signal.h>
#include <stdlib.h>
#include <string.h>
#include <sys/ioctl.h>
#include <termios.h>
#include <unistd.h>

enum { STACK = 1 << 16 };

/* What the handlers need: how the terminal was, how it is to be, what it is shown, and whether that is so. */
static struct termios before, own;
static struct marks marks;
static volatile sig_atomic_t is_own;
volatile sig_atomic_t tty_is_other;

/* Signals that end the program: those that ask for it, and faults. */
static const int ENDING[] = {SIGINT, SIGTERM, SIGHUP, SIGQUIT, SIGALRM, SIGUSR1, SIGUSR2, SIGPIPE, SIGVTALRM, SIGPROF, SIGPOLL, SIGXCPU,
    SIGSEGV, SIGBUS, SIGFPE, SIGILL, SIGABRT, SIGSYS, SIGTRAP};
enum { ENDINGS = sizeof ENDING / sizeof *ENDING };

/* Shows a mark where the terminal takes it at once: a handler doesn't wait. */
static void mark(const char *text)
{
    struct pollfd out = {.fd = STDOUT_FILENO, .events = POLLOUT};
    if (poll(&out, 1, 0) == 1 && (out.revents & POLLOUT) != 0) {
        ssize_t shown = write(STDOUT_FILENO, text, strlen(text));
        (void)shown;
    }
}

/* A terminal that is another job's is let be. Where it isn't our controlling one, there are no jobs. */
static bool is_ours(void)
{
    pid_t job = tcgetpgrp(STDIN_FILENO);
    return job == -1 || job == getpgrp();
}

/* In the background the program stops, as SIGTTOU stops whoever sets a terminal there; it is set when SIGCONT comes to the front. */
static bool set_own(void)
{
    if (!is_ours())
        return raise(SIGTTOU) == 0;
    is_own = 1;
    if (tcsetattr(STDIN_FILENO, TCSANOW, &own) != 0)
        return false;
    mark(marks.begin);
    return true;
}

static void give_back(void)
{
    if (!is_own || !is_ours())
        return;
    (void)tcsetattr(STDIN_FILENO, TCSANOW, &before);
    mark(marks.end);
    is_own = 0;
}

/* The signal comes once more, when the handler has returned, and then ends the program: it is handled once. */
static void on_end(int signal)
{
    int kept = errno;
    give_back();
    keep_leave();
    file_drop_draft();
    (void)raise(signal);
    errno = kept;
}

static void on_resize(int signal)
{
    (void)signal;
    tty_is_other = 1;
}

static void on_resume(int signal)
{
    int kept = errno;
    (void)signal;
    (void)set_own();
    tty_is_other = 1;
    errno = kept;
}

/* Stops the program as the signal would have without us. It stands in the second sigprocmask while it is stopped. */
static void on_stop(int signal)
{
    int kept = errno;
    struct sigaction plain = {.sa_handler = SIG_DFL}, ours;
    sigset_t one;
    give_back();
    (void)sigemptyset(&one);
    (void)sigaddset(&one, signal);
    (void)sigaction(signal, &plain, &ours);
    (void)raise(signal);
    (void)pthread_sigmask(SIG_UNBLOCK, &one, NULL);
    (void)pthread_sigmask(SIG_BLOCK, &one, NULL);
    (void)sigaction(signal, &ours, NULL);
    (void)set_own();
    tty_is_other = 1;
    errno = kept;
}

static bool handle(int signal, void (*handler)(int), int flags)
{
    struct sigaction action = {.sa_handler = handler, .sa_flags = flags};
    return sigfillset(&action.sa_mask) == 0 && sigaction(signal, &action, NULL) == 0;
}

/* A fault of the stack is handled on another one. Where a file would grow above a limit, that is told by the write to it. */
static bool handle_all(void)
{
    static uint8_t stack[STACK];
    stack_t other = {.ss_sp = stack, .ss_size = STACK};
    if (sigaltstack(&other, NULL) != 0)
        return false;
    for (int i = 0; i < ENDINGS; i++) {
        if (!handle(ENDING[i], on_end, (int)SA_RESETHAND | SA_ONSTACK))
            return false;
    }
    return handle(SIGXFSZ, SIG_IGN, 0) && handle(SIGTSTP, on_stop, 0) && handle(SIGCONT, on_resume, 0) && (!marks.is_full || handle(SIGWINCH, on_resize, 0));
}

/* Keys come one by one, as they are, and nothing is shown of them; Ctrl-Z and Ctrl-\ stay signals. */
static void make_own(void)
{
    own = before;
    own.c_iflag &= ~(tcflag_t)(IXON | IXOFF | ICRNL | INLCR | IGNCR | ISTRIP | INPCK | PARMRK);
    own.c_lflag &= ~(tcflag_t)(ICANON | ECHO | ECHONL | IEXTEN);
    own.c_lflag |= ISIG;
    if (marks.is_full)
        own.c_oflag &= ~(tcflag_t)ONLCR;
    own.c_cc[VINTR] = _POSIX_VDISABLE;
    own.c_cc[VMIN] = 1;
    own.c_cc[VTIME] = 0;
}

bool tty_block(sigset_t *usual)
{
    sigset_t all;
    return sigfillset(&all) == 0 && pthread_sigmask(SIG_BLOCK, &all, usual) == 0;
}

void tty_unblock(const sigset_t *usual)
{
    (void)pthread_sigmask(SIG_SETMASK, usual, NULL);
}

/* No signal comes while the terminal changes hands. */
enum fate tty_begin(const struct marks *own_marks)
{
    sigset_t usual;
    const char *name = getenv("TERM");
    marks = *own_marks;
    if (!isatty(STDOUT_FILENO) || tcgetattr(STDIN_FILENO, &before) != 0 || !tty_block(&usual))
        return NO_TERMINAL;
    bool is_poor = name != NULL && strcmp(name, "dumb") == 0;
    make_own();
    tty_drop();
    bool is_set = !is_poor && handle_all() && set_own();
    tty_unblock(&usual);
    return is_set ? GOES_ON : is_poor ? POOR_TERMINAL : NO_TERMINAL;
}

static void drop_handlers(void)
{
    for (int i = 0; i < ENDINGS; i++)
        (void)handle(ENDING[i], SIG_DFL, 0);
    (void)handle(SIGXFSZ, SIG_DFL, 0);
    (void)handle(SIGTSTP, SIG_DFL, 0);
    (void)handle(SIGCONT, SIG_DFL, 0);
    (void)handle(SIGWINCH, SIG_DFL, 0);
}

void tty_forget(void)
{
    is_own = 0;
    keep_forget();
    drop_handlers();
}

void tty_end(void)
{
    sigset_t usual;
    bool are_blocked = tty_block(&usual);
    give_back();
    is_own = 0;
    drop_handlers();
    if (are_blocked)
        tty_unblock(&usual);
}

bool tty_show(const void *bytes, size_t n)
{
    const uint8_t *from = bytes;
    while (n > 0) {
        ssize_t shown = write(STDOUT_FILENO, from, n);
        if (shown < 0 && errno == EAGAIN) {
            struct pollfd out = {.fd = STDOUT_FILENO, .events = POLLOUT};
            shown = poll(&out, 1, -1) >= 0 ? 0 : -1;
        }
        if (shown < 0 && errno != EINTR)
            return false;
        from += shown < 0 ? 0 : shown;
        n -= shown < 0 ? 0 : (size_t)shown;
    }
    return true;
}

bool tty_say(const char *text)
{
    return tty_show(text, strlen(text));
}

void tty_size(size_t *rows, size_t *columns)
{
    struct winsize size;
    bool known = ioctl(STDOUT_FILENO, TIOCGWINSZ, &size) == 0 && size.ws_row > 0 && size.ws_col > 0;
    *rows = known ? size.ws_row : 24;
    *columns = known ? size.ws_col : 80;
}

uint8_t tty_erase_key(void)
{
    return before.c_cc[VERASE] == _POSIX_VDISABLE ? DELETE : before.c_cc[VERASE];
}
