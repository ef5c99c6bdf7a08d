/*
 * terminal.h - what the programs for a person at a terminal share: teco-term, and teco-screen of frontends/screen
 *
 * term-options.c reads the line of a program, and says how it ended; term-sources.c reads the sources that it names. term-work.c does what a
 * string asks, over a session; term-keep.c keeps the session in a file, and term-left.c goes on with one that was left; term-journal.c has
 * the strings for the screen; term-save.c writes what an exit would, and goes on; term-past.c keeps all that were ever run, so that they come
 * back as text. term-codes.c has the sentences of the codes. term-file.c reads INPUT and writes the output; term-tty.c sets the terminal, and
 * term-read.c reads it, also while a string runs; term-keys.c tells keys, sequences and pastes apart. line-edit.c has the string that is
 * typed, and line-recall.c brings back those before.
 */
#ifndef TERMINAL_H
#define TERMINAL_H

#ifndef _XOPEN_SOURCE
#define _XOPEN_SOURCE 700
#endif
#ifndef _DEFAULT_SOURCE
#define _DEFAULT_SOURCE
#endif

#include "teco.h"
#include <signal.h>
#include <stdbool.h>
#include <stddef.h>
#include <stdint.h>
#include <sys/stat.h>
#include <sys/types.h>
#include <time.h>

#define CONTROL(letter) ((letter) & 31)
enum { BELL = 7, TAB = 9, LINE_FEED = 10, RETURN = 13, ESCAPE = 27, DELETE = 127 };

/* How the program ends, where it doesn't go on. */
enum fate {
    GOES_ON, EXIT, SAVED, END_OF_COMMANDS, TERMINAL_GONE, NO_INPUT, LARGE_INPUT, BAD_SOURCE, NO_OUTPUT, CHANGED_FILE, NO_TERMINAL,
    POOR_TERMINAL, READ_FAULT, SHOW_FAULT, NO_MEMORY
};

static inline enum fate shown(bool is_shown)
{
    return is_shown ? GOES_ON : SHOW_FAULT;
}

/* A byte that is skipped between commands. */
static inline bool is_filler(uint8_t byte)
{
    return byte == ' ' || byte == RETURN || byte == LINE_FEED || byte == 0;
}

/* Bytes that grow. All zero they are none. */
struct bytes {
    uint8_t *at;
    size_t count, room;
};

/* Finds room for n more bytes, or adds n. False if memory is refused: then they are as before. */
bool bytes_reserve(struct bytes *bytes, size_t n);
bool bytes_add(struct bytes *bytes, const void *from, size_t n);
void bytes_free(struct bytes *bytes);

/* THE LINE OF THE PROGRAM */

struct options {
    char **inputs; /* so many INPUTs, one after another; and the one that is edited */
    int count;
    const char *input, *output; /* the output's name may be none: INPUT.out then, or INPUT where that isn't there yet */
    uint64_t limit, depth, lines; /* of a page, or 0 for any number */
    bool in_place, wide, steps, help, version;
    const char **files;        /* so many files of sources, */
    int file_count;
    struct bytes strings;      /* and the bytes that they stand for, one after another */
};

/* What differs between the programs. */
struct program {
    const char *name, *usage, *help;
    bool has_steps; /* it takes --steps */
};

/* Reads the line. -1 if the program goes on, or else the status with which it ends: after its help or its version, or of a faulty line. */
int options_read(const struct program *program, int count, char **words, struct options *options);

/* The status that one INPUT has, or a source: says on standard error what there is to say. */
int conclude(const struct program *program, const char *name, enum fate fate);

/* Reads the sources of the line. -1, or else the status with which the program ends, and it is said why. */
int sources_read(const struct program *program, struct options *options);

/* The string of the sources that begins at a place, n bytes with the first ESC of its pair; the place then is behind the pair. Null where no
   pair is left. And what there is to tell of the bytes from a place on, since they were not run: false where there are none but fillers. */
const uint8_t *sources_next(const struct bytes *strings, size_t *at, size_t *n);
bool sources_tell(const struct bytes *strings, size_t at, char *text, size_t size);

/* Edits one INPUT after another, as long as each ends by an exit or can't be read. The status of the program. Says on standard error what
   there is to say. */
int edit_all(const struct program *program, struct options *options, enum fate (*edit)(const struct options *options));

/* FILES */

/* Reads a file whole, at most TECO_INPUT_LIMIT bytes of it, and what the system tells of it: GOES_ON, NO_INPUT, LARGE_INPUT or
   NO_MEMORY. A file that isn't there, in a folder that is, has no bytes. */
enum fate file_read(const char *name, struct bytes *to, struct stat *about, bool *is_new);

/* What is written to a file: the output of a session, or bytes where that is null. */
struct content {
    const struct teco *session;
    const struct bytes *bytes;
};

/* Writes to a file of this name, which has it whole or stays as it was. Devices and pipes get it after what they have. EXIT, NO_MEMORY, or
   NO_OUTPUT and the reason in errno. */
enum fate file_write(const char *name, const struct content *content);

/* Reads what a file has that is open, or a pipe, and writes to one. */
enum fate file_take(int file, struct bytes *to);
bool file_put(int file, const struct content *content);

/* Takes the draft of a file away that is being written. A signal's handler may call it. */
void file_drop_draft(void);

/* Whether writing to this name replaces a file that is there. Tells what the system tells of that. */
bool file_is_replaced(const char *name, struct stat *there);

/* Whether two looks at a file saw the same one with the same bytes, by its number, size and time. */
bool file_is_same(const struct stat *one, const struct stat *other);

/* THE STRINGS OF A SESSION */

/* The code of a string that was run by another process: how it ended isn't known. */
enum { NOT_KNOWN = 255 };

/* A string that was run: where its text ends among all of them, and how it ended. */
struct kept {
    size_t end;
    uint64_t steps;
    uint8_t code;
};

/* The strings, so many of which are not undone. All zero there are none. */
struct journal {
    struct bytes texts;
    struct kept *strings;
    size_t count, room, cursor;
    bool is_wanted; /* something would be lost, if the program were ended now */
};

/* Finds room for a string of n bytes. False where memory is refused. */
bool journal_reserve(struct journal *journal, size_t n);

/* Notes a string for which there is room, in place of those that are undone. */
void journal_note(struct journal *journal, const uint8_t *text, size_t n, uint8_t code, uint64_t steps);

/* Moves the cursor; and cuts the last string off after so many steps, where it has more. */
void journal_move(struct journal *journal, size_t cursor);
void journal_rewind(struct journal *journal, uint64_t steps);
void journal_want(struct journal *journal, bool is_wanted);
void journal_free(struct journal *journal);

/* The text of string i. */
const uint8_t *journal_text(const struct journal *journal, size_t i, size_t *n);

/* THE FILE OF A SESSION */

/* Room for a sentence that tells what was written, or of the file. */
enum { WROTE = 300 };

/* The file. Without one its place is -1. */
struct keeper {
    int file;              /* which is open and held, */
    char *name, *aside;    /* its name, and that under which it is set aside, if that is known */
    struct teco_line line; /* what was written last, */
    struct bytes room;     /* and room for what comes next */
    bool is_shared;        /* another program edits the same file */
    bool has_failed;       /* nothing more is written to it */
    char note[WROTE];      /* what there is to tell a person */
};

/* Opens the file of a session over INPUT, and holds it: one that was left, or a new one; beside INPUT, or else in the folder for states. */
void keep_open(struct keeper *keeper, const char *input, bool is_beside);

/* What the file has, and when that was written. Without a file nothing. GOES_ON, NO_INPUT, LARGE_INPUT or NO_MEMORY. */
enum fate keep_read(const struct keeper *keeper, struct bytes *to, time_t *when);

/* Begins the file anew over n bytes of INPUT, or goes on behind what was read of it. */
void keep_begin(struct keeper *keeper, bool is_wide, const uint8_t *input, size_t n, size_t lines, size_t depth);
void keep_go_on(struct keeper *keeper, const struct teco_resumed *resumed);

/* Adds the line of a request. Before its answer is shown, keep_sync waits until all lines outlast a crash of the machine. Where one can't be
   written, that is told once, and the file stays as it is. */
void keep_add(struct keeper *keeper, uint8_t kind, uint64_t steps, const uint8_t *text, size_t n);
void keep_sync(struct keeper *keeper);

/* The name under which the file would be set aside, or its own where none is left; and setting it aside, in place of which there is an
   empty one then. False where it stays. */
const char *keep_aside(struct keeper *keeper);
bool keep_set_aside(struct keeper *keeper);

/* Whether something would be lost without the file: if not, keep_leave takes it away, which a signal's handler may call. */
void keep_want(const struct keeper *keeper, bool is_wanted);
void keep_leave(void);

/* A copy of the process doesn't hold the file. */
void keep_forget(void);

/* Closes the file; takes it away where it is dropped, or nothing would be lost. */
void keep_end(struct keeper *keeper, bool is_dropped);

/* What there is to tell of the file: false where there is nothing. And whether any file of this process could not be written. */
bool keep_tells(struct keeper *keeper, char *text, size_t size);
bool keep_has_failed(void);

/* THE STRINGS THAT CAN COME BACK AS TEXT */

/* Keeps a string that was run, as it was typed, without its pair of ESC. One that is the same as the last is kept once, and an empty one
   isn't. False where memory is refused: then it is not kept. */
bool past_add(const uint8_t *bytes, size_t length);

/* How many there are, and string k of them, where 0 is the oldest. Its bytes stay until the next one is kept. */
size_t past_count(void);
const uint8_t *past_at(size_t k, size_t *length);
void past_free(void);

/* WHAT A STRING ASKS */

/* The most bytes that a string may type: memory that is not written to costs none. */
enum { ROOM = 64 << 20 };

/* The most calls of macros that are open at once. */
enum { CALLS = 32 };

/* How a string ended that was run. */
struct told {
    uint8_t code;
    bool is_broken_off;
    size_t at, calls; /* where it stopped in the string itself, or TECO_NOWHERE; and how many macros were open there, */
    struct teco_call open[CALLS]; /* which are these, the latest first */
    uint64_t steps;
    size_t made;
};

/* What is edited. */
struct work {
    const struct options *options;
    struct teco session;
    struct teco_stopper asked, asks; /* a run is asked to stop, and the keys ask it */
    size_t size;              /* of INPUT, */
    bool is_new;              /* which wasn't there */
    uint64_t lines;           /* of a page, or 0 for any number */
    struct stat known;        /* the file that may be replaced, as it was read or written here, or as a person was told of it */
    char *output;             /* the name of the output, */
    char wrote[WROTE];        /* and what was written, or nothing */
    struct journal journal;
    struct keeper keeper;     /* the file of the session */
    struct bytes input;       /* what INPUT has, until the session is begun */
    bool is_left;             /* a session was left, and it is to be asked whether to go on with it; */
    bool is_same;             /* its input is what INPUT has; */
    bool is_gone_on;          /* it was gone on with */
    struct teco_resumed resumed; /* what was told of it, */
    time_t when;              /* and when it was left */
    struct bytes saved;       /* what was saved last, or what INPUT has where the session is over another text, */
    size_t saved_place;       /* when so much of INPUT had been read */
    bool is_saved;
    size_t verified;          /* so many bytes of the output are those of INPUT, or of what was saved */
    uint8_t *room;            /* for what a string types */
};

/* Reads INPUT and opens a session over it. GOES_ON, NO_INPUT, LARGE_INPUT or NO_MEMORY. work_close frees it, whatever this came to, and
   takes the file of the session away where the program has ended so that nothing is lost. */
enum fate work_open(struct work *work, const struct options *options);

/* What reads a token of a command string of the session: teco_token, or teco_token_wide. */
typedef uint8_t token_reader(const uint8_t *text, size_t n, size_t at, struct teco_token *token);
token_reader *work_reader(const struct work *work);
void work_close(struct work *work, enum fate fate);

/* Opens a session over INPUT, or one that was left; and asks at the terminal whether to go on with that. GOES_ON, NO_MEMORY, TERMINAL_GONE,
   READ_FAULT or SHOW_FAULT. */
enum fate left_look(struct work *work);
enum fate left_ask(struct work *work);

/* Notes whether something would be lost, if the program were ended now. */
void work_want(struct work *work);

/* What a string asks that is at most 9 digits, and then a brace or a tilde: that byte, or 0 where it is a command string. Tells how many
   times, or the number of steps. */
uint8_t work_asks(const uint8_t *text, size_t n, uint64_t *number);

/* Does what a string of n bytes asks: runs it, undoes, redoes or rewinds. What it typed is in the room. Where memory is refused for
   noting it, it isn't begun: TECO_NOT_BEGUN. */
struct told work_do(struct work *work, const uint8_t *text, size_t n);
/* Runs a string of n bytes that is asked to stop by this stopper. What it typed is in the room. */
void work_run(struct work *work, const uint8_t *text, size_t n, uint64_t limit, const struct teco_stopper *asked, struct told *told);

uint8_t work_undo(struct work *work, uint64_t times);
uint8_t work_redo(struct work *work, uint64_t times);
uint8_t work_rewind(struct work *work, uint64_t steps);

/* The steps of the last string that isn't undone. False where there is none. */
bool work_steps(const struct work *work, uint64_t *steps);

/* Whether EX would write something else than INPUT has, or than was saved last. */
bool work_has_edits(struct work *work);

/* How the program ends that is left without an exit: well, where all was saved. */
enum fate work_leave(struct work *work);

/* Writes the output after an exit. EXIT, or else the session is where it was before the string that exits, and `why` says what the person
   has to know: GOES_ON where another name is wanted, CHANGED_FILE where a second exit replaces a file that isn't this session's. */
enum fate work_write(struct work *work, char *why, size_t size);

/* Writes what an exit would, and goes on: GOES_ON, CHANGED_FILE where a second save replaces a file that isn't this session's, NO_OUTPUT or
   NO_MEMORY. Says what was done. */
enum fate work_save(struct work *work, char *why, size_t size);

/* Whether the output is INPUT. */
bool work_is_over_input(const struct work *work);

/* Writes to the output, if that replaces no file that isn't this session's; `again` is what replaces it then. EXIT, CHANGED_FILE,
   NO_OUTPUT or NO_MEMORY, and why. */
enum fate work_write_content(struct work *work, const struct content *content, const char *again, char *why, size_t size);

/* Tells on standard error what was written, once the terminal is given back. */
void work_tell(const struct work *work);

/* Goes on to the exit that could not be written, over another name, or the same where n is 0. The same. */
enum fate work_write_to(struct work *work, const uint8_t *name, size_t n, char *why, size_t size);

/* The letters of a code, and its sentence, by its number; and the sentence of how a string ended. */
const char *code_letters(uint8_t number);
const char *code_sentence(uint8_t number);
const char *told_sentence(const struct told *told);

/* Names the macros that were open, the innermost first: three of them, and how many more. */
void told_macros(const struct told *told, char *text, size_t size);

/* THE TERMINAL */

/* What the terminal is shown when it is taken, and when it is given back; and whether all of it is drawn on: then line ends go to it as
   they are, and a wait comes to RESUMED in another size. */
struct marks {
    const char *begin, *end;
    bool is_full;
};

/* Drops the keys that came while the last string ran. */
void tty_drop(void);

/* Sets the terminal for keys. GOES_ON, NO_TERMINAL, or POOR_TERMINAL where it is a dumb one. tty_end gives it back as it was; so does
   each signal that ends the program or stops it. */
enum fate tty_begin(const struct marks *marks);
void tty_end(void);

/* A copy of the process has none of the handlers, never sets the terminal, and doesn't hold the file of the session. It is called with all
   signals blocked. */
bool tty_block(sigset_t *usual);
void tty_unblock(const sigset_t *usual);
void tty_forget(void);

/* Shows bytes. False where the terminal doesn't take them. */
bool tty_show(const void *bytes, size_t n);
bool tty_say(const char *text);

/* What a wait comes to: bytes of keys; something to read at the other place; the screen isn't what it was; no more bytes ever come; a
   fault; and the time is over. */
enum event { CAME, TOLD, RESUMED, ENDED, FAILED, LATE };

/* Waits for bytes, and reads all that come together: no two reads of them are more than 10 ms apart. */
enum event tty_read(struct bytes *together);

/* Waits for bytes, for another place that can be read, or -1, and at most so long, or for ever where that is null. */
enum event tty_wait(int other, const struct timespec *most);

/* Reads a piece of what came, behind what there is: CAME, ENDED, FAILED. tty_take_all reads all that comes together. */
enum event tty_take(struct bytes *together);
enum event tty_take_all(struct bytes *together);

/* Whether the terminal was given back meanwhile or has another size: then a wait comes to RESUMED. tty_resume says that all is about to be
   drawn anew. */
extern volatile sig_atomic_t tty_is_other;
void tty_resume(void);

/* From some 10 ms after this on a thread reads the keys, until tty_unwatch. It keeps them, and after that they come first, in their order.
   At a Ctrl-C that isn't pasted it asks to stop instead, and so it does if no more bytes will come. If the system makes no thread, the
   keys wait. */
void tty_watch(const struct teco_stopper *asks);
void tty_unwatch(void);

/* Whether it has asked so since tty_watch. */
bool tty_is_broken_off(void);

/* How long bytes may be apart that come together; and those of a sequence, where its ESC alone would make a pair and run a string. */
extern const struct timespec TTY_GAP, TTY_PAIR_GAP;

/* The size of the terminal, or 24 rows and 80 columns where it isn't known, and the byte of its erase key. */
void tty_size(size_t *rows, size_t *columns);
uint8_t tty_erase_key(void);

#include "typing.h"

#endif
