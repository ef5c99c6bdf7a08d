/*
 * teco.h - command strings with total undo and redo, as a library
 *
 * A session is an editor that runs command strings. Each one is kept, however it ended, and can be undone and redone; an undo and a
 * redo ask for no memory. Link with libteco_c.a; docs/LIBRARY.md says how it is made.
 *
 * THE HANDLE
 *   A `struct teco` is closed while it is all zero, so `struct teco t = {0};` is a closed one. teco_open opens it and teco_close closes
 *   it. Every call may be made on a closed one: it answers TECO_CLOSED, tells 0 and leaves the handle closed. teco_close lets it be.
 *
 * WHO OWNS WHAT
 *   The library owns all that a handle leads to, and copies what it is given: the input and a command string may be freed after the
 *   call. What a call tells goes into memory of the caller. The caller owns the handle itself. He doesn't write into it, doesn't copy an
 *   open one, and closes it before it goes away: else its memory is lost.
 *
 * POINTERS
 *   t           to a handle that is all zero, or as a call left it
 *   a text      to so many bytes that may be read, and not null, also where the number is 0
 *   a room      to so many bytes, or calls, that may be written, and not null, also where the number is 0; they may be anything
 *   a run       to a struct teco_run whose limit, stopper and rooms are set
 *   other ones  to one value that may be written; it may be anything
 *   A text and a room have at most PTRDIFF_MAX bytes. No two of a call's pointers, and of those in its run, lead to the same memory, and while
 *   a call runs nobody else reads or writes what they lead to. Nothing checks this: it is what the proofs of the library begin from.
 *
 * UNITS
 *   Texts are bytes; places, lengths and rooms count bytes from 0; strings are counted from 0, the oldest one that is kept first; steps
 *   are what a limit counts. Nothing ends with a zero byte.
 *
 * ANSWERS
 *   0 is success. 1 to 32 are the numbers of the codes by which a command string, or a call, ends; those that a call itself can lead
 *   to have their names below. The five calls at the end answer 1 and 0 for yes and no. Each other call that answers something else
 *   than 0 has changed nothing, told 0 and copied nothing. Only teco_run, teco_token, teco_token_wide and teco_source say otherwise.
 *
 * THREADS AND SIGNALS
 *   The handle of a session stays on the thread that opened it. Different sessions share nothing, and may be in calls at the same time on
 *   different threads. A call isn't made from a signal handler. docs/LIBRARY.md says how much stack a call needs.
 *
 * STOPPERS
 *   A stopper is a flag with two handles that are alike, each a `struct teco_stopper`: so a thread can ask for a stop while another one
 *   runs a string. The thread that runs has its handle in its struct teco_run, and the other one calls teco_stop with the other handle,
 *   at any time. What is said above of a handle holds for each of the two, but that each may go to another thread: by the start or the join
 *   of a thread, under a lock, or by an atomic that is sequentially consistent. Each is in one call at a time, so where several threads
 *   ask, they share a handle under a lock. It may be moved into a struct teco_run for the time of a run, which leaves it as it was.
 *   No run takes a stop back: it stays asked until teco_stop takes it back. So one that is asked before a run begins breaks it off before
 *   its first step, and each run after it too. Who listens for a key while a string runs takes back what was asked, begins to listen,
 *   runs, and ends to listen. From a signal handler no stop is asked: a thread that waits for the signal asks it.
 *   A flag belongs to no session: it serves any number of runs. It is freed when both handles are closed, in any order, also while a run
 *   has the other one.
 */
#ifndef TECO_H
#define TECO_H

#include <stddef.h>
#include <stdint.h>

/* The version of the library and of all programs. */
#define TECO_VERSION "0.2.0"

#ifdef __cplusplus
extern "C" {
#endif

struct teco {
    void *at;
};

struct teco_stopper {
    void *at;
};

/* The limits of the input, of the depth, and of a text: of the buffer, of a register and of a search. */
#define TECO_INPUT_LIMIT 1073741824
#define TECO_DEPTH_LIMIT 100000
#define TECO_TEXT_LIMIT 16777216

enum {
    TECO_ILL = 7,         /* no command begins so */
    TECO_IQC = 9,         /* no test is named so */
    TECO_IQN = 10,        /* no register is named so */
    TECO_UTC = 24,        /* the text ends inside of a command */
    TECO_LIM = 27,        /* the limit of steps was reached, or the string was broken off */
    TECO_MEM = 28,        /* memory was refused */
    TECO_TTY = 29,        /* the room was too small for what was typed */
    TECO_NTU = 30,        /* there is nothing to undo */
    TECO_NTR = 31,        /* there is nothing to redo */
    TECO_END = 32,        /* an exit has ended the session */
    TECO_CARET = 246,     /* a caret of a source stands before what it can't stand before */
    TECO_CHANGED_HEAD = 247, /* the bytes begin with no head of a session's file, of this version and as it was written */
    TECO_TORN_HEAD = 248, /* the bytes end before the head of a session's file does */
    TECO_OTHERWISE = 249, /* a string does not run again as it ran */
    TECO_NO_TOKEN = 250,  /* no token is left in the text */
    TECO_OUTSIDE = 251,   /* there is no such string, change, splice, register or search text */
    TECO_NOT_BEGUN = 252, /* the history found no memory for the string: it wasn't begun, and nothing changed */
    TECO_DEEP = 253,      /* the depth is above TECO_DEPTH_LIMIT */
    TECO_LARGE = 254,     /* the input is above TECO_INPUT_LIMIT */
    TECO_CLOSED = 255     /* the handle is closed */
};

/* The place of a string that ended well, or of which none is told. */
#define TECO_NOWHERE SIZE_MAX

/* What a token is. */
enum {
    TECO_TOKEN_DIGITS = 1,      /* a run of digits */
    TECO_TOKEN_VALUE = 2,       /* B Z . ^E ^N */
    TECO_TOKEN_ARITHMETIC = 3,  /* H + - * / & # ( ) , */
    TECO_TOKEN_LEVEL = 4,       /* A and \, each a value or a command */
    TECO_TOKEN_COMMAND = 5,     /* J C R L D K T V ^T = == Y P PW EX ; ^X */
    TECO_TOKEN_REGISTER = 6,    /* Q % U X G M [ ], with the name of a register */
    TECO_TOKEN_BYTE = 7,        /* ^^ and a byte */
    TECO_TOKEN_TEXT = 8,        /* I TAB ^A S N _, with a text */
    TECO_TOKEN_JUMP = 9,        /* O, with the name of a tag */
    TECO_TOKEN_SET_TEXT = 10,   /* ^U, with the name of a register and a text */
    TECO_TOKEN_REPLACE = 11,    /* FS, with two texts */
    TECO_TOKEN_MARK = 12,       /* < > | ' */
    TECO_TOKEN_TEST = 13,       /* a quotation mark, with the letter of a test */
    TECO_TOKEN_TAG = 14,        /* a tag between two exclamation marks */
    TECO_TOKEN_ESCAPE = 15      /* ESC between tokens */
};

/* What a change of a string is for. */
enum {
    TECO_KIND_SPLICE = 1,  /* bytes of the buffer's text, and the pointer: teco_splice tells which bytes */
    TECO_KIND_POINT = 2,   /* the pointer */
    TECO_KIND_NUMBER = 3,  /* the number of a register */
    TECO_KIND_TEXT = 4,    /* the text of a register */
    TECO_KIND_PUSH = 5,    /* the push-down list */
    TECO_KIND_POP = 6,     /* the push-down list, and the number and the text of a register */
    TECO_KIND_PAGES = 7,   /* the place in the input, the end of the output, and whether a form feed ended the page */
    TECO_KIND_SEARCH = 8,  /* the last search text */
    TECO_KIND_FOUND = 9,   /* whether the last search found */
    TECO_KIND_DONE = 10,   /* whether an exit has ended the session */
    TECO_KIND_MODE = 11    /* whether searches find a letter in either case */
};

/*
 * Opens a session over a copy of n bytes of input. A page of it ends at a form feed, and after `lines` line ends too, or after any number
 * of them where that is 0. It keeps the last `depth` strings, or all of them where depth is 0.
 * 0, TECO_LARGE, TECO_DEEP or TECO_MEM. Where it isn't 0 the handle is as it was: a closed one stays closed, and an open one keeps its
 * session. Where it is 0, a session that was open in the handle is freed.
 */
uint8_t teco_open(struct teco *t, const uint8_t *input, size_t n, size_t lines, size_t depth);

/*
 * The same, of a session in the wide language, that of `teco --wide`, which reads old macros: its command strings are read in it, and so are
 * the texts of registers that they run. A session stays in its language. The answers, what they leave and what is freed are those of
 * teco_open.
 */
uint8_t teco_open_wide(struct teco *t, const uint8_t *input, size_t n, size_t lines, size_t depth);

/* Gives back all memory of the session, and leaves the handle closed and all zero. */
void teco_close(struct teco *t);

/* A call that is open: its place in the text that calls, as of the M in MA, and the name of the register whose text it calls. */
struct teco_call {
    size_t at;
    uint8_t name;
};

/* Room for no byte, and for no call: a run may have these, with the size 0. */
#define TECO_NO_ROOM ((uint8_t *)sizeof(uint8_t))
#define TECO_NO_FRAMES ((struct teco_call *)sizeof(size_t))

/*
 * What a run is given, and what it tells. The caller sets the first six before a call, and a call leaves them as they are, so they may
 * serve for many. Each call sets the last five, whatever it answers; before it they may be anything.
 * All zero it is a run of no step, with no stopper, and its two rooms have yet to be set: a room is not null, also where its size is 0.
 */
struct teco_run {
    uint64_t limit;              /* the most steps that the string may take; with 0 none is done */
    struct teco_stopper stopper; /* asked before each step and within a long search; all zero, or closed, it asks for no stop */
    uint8_t *room;               /* what the string types goes here, from the front on; */
    size_t room_size;            /* there is room for so many bytes */
    struct teco_call *frames;    /* the calls that are open where it stopped go here, the latest first; */
    size_t frames_size;          /* there is room for so many calls: never are more than 32 open */
    size_t made;                 /* so many bytes were typed, no more than room_size */
    uint64_t steps;              /* the string took so many steps */
    size_t at;                   /* where it stopped in the string itself, or TECO_NOWHERE */
    size_t inner;                /* where it stopped in the innermost text, or TECO_NOWHERE */
    size_t calls;                /* so many calls were open there */
};

/*
 * Runs a command string of n bytes. ESC is byte 27; the string needs no two of them at its end.
 * A step that finds too little room left for what it types isn't done, and the string ends by TECO_TTY; a beginning of what that step
 * types may be in the room. What lies behind the bytes that were typed is not told.
 *
 * 0 where the string ended well, or else the number of its code. It is noted, and can be undone, also where it ended by a code.
 * TECO_MEM: it ended for want of memory, after whole steps. TECO_END: an exit has ended the session, so it wasn't begun, and nothing
 * changed. TECO_NOT_BEGUN: no memory was found to note it, and nothing changed.
 * A string that is begun drops those that are undone, and with a depth the oldest one where there is one too many.
 *
 * It stopped at the command that ended it by a code, at the one that can't be read, or at the one that comes next where the limit ended it
 * or a stopper. `at` is its place in the string, no more than n. Where it stopped inside of macros, `at` is the place of the outermost
 * call, as of the M in MA, and `inner` that of the command in the text of the register which the first of the frames calls; where no call
 * is open, the two are the same. Frames behind those that were told stay as they were.
 * `at` and `inner` are TECO_NOWHERE, and `calls` is 0, where the string ended well or wasn't begun, on a closed handle, and where no memory
 * was found for the place: then it was run all the same. No call tells it later.
 *
 * Is a stop asked, the string ends by TECO_LIM after the `steps` that were done, just as under a limit of so many: it is noted, and undone,
 * redone and rewound as any other. A step that has begun is done to its end, and a search is one step.
 */
uint8_t teco_run(struct teco *t, const uint8_t *text, size_t n, struct teco_run *run);

/*
 * Opens a stopper, with two handles: no stop is asked. 0 or TECO_MEM. Where it isn't 0 both handles are as they were; where it is 0, what
 * was open in them is closed.
 */
uint8_t teco_stopper_open(struct teco_stopper *here, struct teco_stopper *there);

/* Closes one handle of a stopper, and leaves it all zero. */
void teco_stopper_close(struct teco_stopper *stopper);

/* Asks for a stop, or takes it back where `asked` is 0: 0 or TECO_CLOSED. Asks for no memory, and waits for nobody. */
uint8_t teco_stop(const struct teco_stopper *stopper, uint8_t asked);

/* Goes back to the state before the last string that isn't undone: 0 or TECO_NTU. Asks for no memory; may be made after an exit. */
uint8_t teco_undo(struct teco *t);

/* Goes on to the state after the first undone string: 0 or TECO_NTR. Asks for no memory. */
uint8_t teco_redo(struct teco *t);

/*
 * Goes back to the state after the first n steps of the last string that isn't undone, and drops the undone ones: 0 or TECO_NTU. The
 * string has taken n steps then, or as many as before where those are fewer: so UINT64_MAX only drops the undone ones. Asks for no
 * memory; may be made after an exit.
 */
uint8_t teco_rewind(struct teco *t, uint64_t n);

/* Drops the strings that are undone, so that none is left to redo: 0. Nothing else changes. Asks for no memory; may be made after an exit. */
uint8_t teco_forget(struct teco *t);

/*
 * THE FILE OF A SESSION
 *   What requests do can be kept in a file, from which teco_resume opens the session again, with its registers and all that can be undone.
 *   The caller writes the file. It begins with the head. After each request that was not refused, and before its answer is shown, the line
 *   of it comes behind those before. So a crash loses one request at most. Each line has a check of all before it: at a line that was
 *   changed, lost or doubled a reading stops.
 */

/* What a request did. */
enum {
    TECO_RAN = 1,     /* a string was run: by any answer of teco_run but TECO_END, TECO_NOT_BEGUN and TECO_CLOSED */
    TECO_UNDID = 2,   /* by teco_undo */
    TECO_REDID = 3,   /* by teco_redo */
    TECO_REWOUND = 4, /* by teco_rewind */
    TECO_FORGOT = 5   /* by teco_forget */
};

/* A line of the file. The caller sets the first five before a call; the check is set by teco_head or teco_resume, and then by each call. */
struct teco_line {
    uint8_t kind;      /* what was done, by its number above; teco_head doesn't look at it */
    uint64_t steps;    /* of TECO_RAN the steps that it took, of TECO_REWOUND those that teco_rewind was given; else it is not looked at */
    uint8_t check[16]; /* the check of the line before, and after the call that of this line */
    uint8_t *room;     /* the line goes here, */
    size_t room_size;  /* where there is room for so many bytes; if that is too little, nothing is copied, and the check stays */
    size_t made;       /* the line has so many bytes */
};

/*
 * The head of the file of a session that teco_open opens over this input of n bytes, with these lines and this depth: 0 or TECO_MEM. It has
 * the input, and some hundred bytes beside.
 */
uint8_t teco_head(const uint8_t *input, size_t n, size_t lines, size_t depth, struct teco_line *line);

/* The same, of a session that teco_open_wide opens: the head says so. */
uint8_t teco_head_wide(const uint8_t *input, size_t n, size_t lines, size_t depth, struct teco_line *line);

/*
 * The line of what a request did: 0, TECO_OUTSIDE where nothing has the number of its kind, or TECO_MEM. Of TECO_RAN the text of n bytes is
 * the string; else it is not looked at. A line has no more than three times the bytes of its string, and some sixty beside.
 */
uint8_t teco_record(const uint8_t *text, size_t n, struct teco_line *line);

/* What is told of a session that was opened again. */
struct teco_resumed {
    uint8_t check[16]; /* the check of the last line that was read, for the next line */
    size_t good;       /* so many bytes were read; those after them have to be cut off before the next line is written */
    size_t records;    /* so many requests were done again */
    size_t lines;      /* a page of its input ends after so many line ends too, or with 0 after any number of them */
    uint8_t ending;    /* why the reading ended there, by its number below */
};

enum {
    TECO_WHOLE = 0,   /* nothing is left */
    TECO_TORN = 1,    /* the last line has no end, as after a crash */
    TECO_CHANGED = 2, /* a line was changed, lost or doubled */
    TECO_UNKNOWN = 3  /* a line tells nothing that is known here */
};

/*
 * Opens the session that n bytes of its file tell, in its language, up to where the reading of its lines ends: 0, TECO_TORN_HEAD,
 * TECO_CHANGED_HEAD, TECO_OTHERWISE, TECO_LARGE, TECO_DEEP or TECO_MEM. Where it isn't 0, the handle and what is told stay as they were; where
 * it is 0, a session that was open in the handle is freed. Its strings are run again, each to the step that it was kept with, and nothing of
 * what they type is told.
 */
uint8_t teco_resume(struct teco *t, const uint8_t *bytes, size_t n, struct teco_resumed *resumed);

/* A token: its first byte is at `from`, and `to` is the place behind its last. */
struct teco_token {
    size_t from;
    size_t to;
    uint8_t kind; /* its number above */
    size_t size;  /* how many bytes its last text has, or the name of its tag, which ends at to - 1, where its delimiter stands; or 0 */
};

/*
 * Reads a text of n bytes, of no session: what stands at the place `at` after fillers, which are SP, CR, LF and NUL.
 * 0 for a token. TECO_NO_TOKEN where none is left, also where `at` is beyond n; TECO_UTC, TECO_ILL, TECO_IQN or TECO_IQC where none can be
 * read. Then `from` is the place after the fillers, `to` is n, and `kind` and `size` are 0. Asks for no memory.
 */
uint8_t teco_token(const uint8_t *text, size_t n, size_t at, struct teco_token *token);

/* The same in the wide language, with the answers of teco_token: what a session of teco_open_wide reads there. Asks for no memory. */
uint8_t teco_token_wide(const uint8_t *text, size_t n, size_t at, struct teco_token *token);

/* What is told of a source. */
struct teco_source {
    size_t made;     /* it stands for so many bytes */
    uint64_t line;   /* the line and the column of the caret by which it can't be read, each from 1; */
    uint64_t column; /* or 0 */
};

/*
 * Reads a source of n bytes, of no session: the form in which `teco -f` reads commands. `$` is ESC and ^J a line end; line ends and margins
 * are layout, and `!!` begins a comment. docs/LANGUAGE.md has the whole of it.
 * 0, TECO_CARET or TECO_MEM. Where it is 0, the bytes that the source stands for are in the room, as many as it has room for; `made` is how
 * many they are, never more than n. Else nothing is copied, and `made` is 0.
 */
uint8_t teco_source(const uint8_t *source, size_t n, uint8_t *room, size_t size, struct teco_source *told);

/* All that follows looks: it asks for no memory and changes nothing, neither the handle nor what it leads to. */

/* How many strings are kept, and how many of them are not undone. */
uint8_t teco_strings(const struct teco *t, size_t *count);
uint8_t teco_cursor(const struct teco *t, size_t *count);

/* How many steps string i took: 0 or TECO_OUTSIDE. */
uint8_t teco_steps(const struct teco *t, size_t i, uint64_t *steps);

/*
 * The calls with a room copy as many bytes as it has room for, and tell the length of all of them: where that is more than the room,
 * the copy is cut off. What lies behind what was copied stays as it was.
 */

/* The text of string i: 0 or TECO_OUTSIDE. */
uint8_t teco_string(const struct teco *t, size_t i, uint8_t *room, size_t size, size_t *length);

/*
 * THE CHANGES OF A STRING
 *   What a string changed is kept as changes, in the order in which its steps made them, counted from 0. An editor that shows the text
 *   reads them to draw no more than what differs. An undo turns those of its string, the last first; a redo turns them, the first first.
 *   To turn a change is to put its value in and to keep what stood there, so that it can be turned again, the other way. The calls here
 *   tell of the turn that comes next: of the undo where string i is not undone (i is less than what teco_cursor tells), and else of the
 *   redo. So before an undo or a redo, they tell what it will do; and after an undo, a redo or a run they tell how that would be taken
 *   back or done again: `gone` are the bytes that it put in, and `came` those that it took out.
 */

/* How many changes string i has: 0 or TECO_OUTSIDE. A step makes at most six; many make none. */
uint8_t teco_changes(const struct teco *t, size_t i, size_t *count);

struct teco_change {
    uint8_t kind;  /* what it is for, by its number above */
    uint8_t name;  /* the name of the register, A to Z or 0 to 9, or 0 where it is for none */
    uint64_t step; /* how many steps of the string were done before it */
};

/* What change k of string i is for: 0 or TECO_OUTSIDE. Nothing else differs once it is turned. */
uint8_t teco_change(const struct teco *t, size_t i, size_t k, struct teco_change *change);

/* At the place `at` the next turn takes `gone` bytes out, and puts `came` others in. */
struct teco_splice {
    size_t at;
    size_t gone;
    size_t came;
};

/*
 * Of change k of string i, where it is for bytes of the text: 0, or TECO_OUTSIDE also where the change is for something else. The places
 * are those of the text at the moment when the turn comes to this change, after those that it turns before it.
 */
uint8_t teco_splice(const struct teco *t, size_t i, size_t k, struct teco_splice *splice);

/* The length of the buffer's text, and the place of the pointer in it. */
uint8_t teco_length(const struct teco *t, size_t *length);
uint8_t teco_pointer(const struct teco *t, size_t *pointer);

/* The text of the buffer from a place on, and the output so far from a place on. Past the end there is nothing, of length 0. */
uint8_t teco_text(const struct teco *t, size_t from, uint8_t *room, size_t size, size_t *length);
uint8_t teco_output(const struct teco *t, size_t from, uint8_t *room, size_t size, size_t *length);

/* The input from a place on, as it was given when the session was opened. Past its end there is nothing, of length 0. */
uint8_t teco_input(const struct teco *t, size_t from, uint8_t *room, size_t size, size_t *length);

/* How many line ends, LF, VT and FF, the text of the buffer has between two places. It takes the time of the way between them. */
uint8_t teco_lines(const struct teco *t, size_t from, size_t to, size_t *count);

/* The number and the text of the register of this name, A to Z in either case or 0 to 9: 0 or TECO_OUTSIDE. */
uint8_t teco_number(const struct teco *t, uint8_t name, int32_t *number);
uint8_t teco_register(const struct teco *t, uint8_t name, uint8_t *room, size_t size, size_t *length);

/* The last search text: 0, or TECO_OUTSIDE where there was none. */
uint8_t teco_search(const struct teco *t, uint8_t *room, size_t size, size_t *length);

/* How many values are on the push-down list, and how many bytes of the input have been read. */
uint8_t teco_pushed(const struct teco *t, size_t *count);
uint8_t teco_place(const struct teco *t, size_t *place);

/*
 * 1 where it is so, 0 where it isn't: an exit has ended the session; the last search found; a form feed ended the page; searches find
 * a letter in either case; the session is in the wide language.
 */
uint8_t teco_done(const struct teco *t);
uint8_t teco_found(const struct teco *t);
uint8_t teco_form_feed(const struct teco *t);
uint8_t teco_either_case(const struct teco *t);
uint8_t teco_is_wide(const struct teco *t);

#ifdef __cplusplus
}
#endif
#endif
