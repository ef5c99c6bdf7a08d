/*
 * screen.h - the parts of teco-screen
 *
 * teco-screen.c has the program. screen-keys.c waits for keys and previews, and says what keys do; screen-strings.c does what a string
 * asks, undoes, steps and writes; screen-find.c finds the step that changed something; screen-short.c has keys that stand for strings.
 * screen-preview.c has the copy of the process in which a string is tried while it is typed, and screen-try.c what the copy does.
 * screen-close.c closes a text that is open, and screen-token.c reads tokens. screen-look.c looks at a session, screen-scroll.c tells
 * where a window begins that is scrolled, screen-marks.c tells which bytes a string put in, screen-old.c shows those that it took out,
 * screen-hits.c what a search finds, screen-lines.c counts lines. screen-draw.c draws the screen, screen-window.c the text, screen-pane.c
 * the pane beside it, screen-rows.c the rows below them, screen-glyph.c tells how bytes are shown, and screen-help.c what commands and keys
 * do, of which screen-commands.h has a list. What teco-term has too comes from terminal.h.
 */
#ifndef SCREEN_H
#define SCREEN_H

#include "terminal.h"
#include <wchar.h>

/* The most bytes of a text that a window has, of what a string typed, and of a string that is shown as it is typed. */
enum { SHOWN = 1 << 16, TAIL = 2048, LONGEST = 1 << 20 };
enum { CODE_SRH = 22, CODE_UTC = 24 };
enum { LEAST_ROWS = 6, LEAST_COLUMNS = 20 };

/* Marks of the bytes in a window: it came, some went before it, the search that is typed finds it. */
enum { MARK_CAME = 1, MARK_GONE_BEFORE = 2, MARK_HIT = 4 };

/* Text that a string took out: so many bytes that stood at a place of the text before it ran. The first of them are shown before this byte of the
   window. */
enum { MOST_OLD = 1024, SHOWN_OF_OLD = 40 };
struct old {
    size_t before, stood, count, shown;
    uint8_t text[SHOWN_OF_OLD];
};

/* Registers, and how many bytes are looked at of the text of one. */
enum { REGISTERS = 36, SHOWN_OF_REGISTER = 96 };
extern const char REGISTER_NAMES[REGISTERS + 1];
struct shown_register {
    int32_t number;
    size_t length;
    uint8_t text[SHOWN_OF_REGISTER];
};

/* What is shown: the session itself, or what a string, a step of the last one, an undo or a redo would make of it. */
enum subject { OF_SESSION, OF_STRING, OF_STEP, OF_UNDO, OF_REDO };

/* Where the window begins, and how much fits into it. It follows the pointer; or was scrolled, and is so many rows below `top`; or is asked to
   go to a change. */
struct window {
    size_t top, rows, columns;
    bool is_free;            /* it stays, wherever the pointer is */
    bool is_scrolled;
    int scroll;
    bool has_numbers;        /* its lines have their numbers */
    enum seeks { STAYS, TO_NEXT_CHANGE, TO_CHANGE_BEFORE } seeks;
    size_t edge;             /* the change is from this place on, or before it */
};

/* What is to be tried: a string of n bytes, or a number of steps, undos or redos. */
struct request {
    enum subject subject;
    size_t n;
    uint64_t number;
    struct window window;
};

/* How much of a text is as it was: so many bytes at its beginning, and so many at its end. */
struct same {
    size_t front, back;
};

/* What is drawn of a session: plain values and bytes, so that another process can hand it over. */
struct view {
    enum subject subject;
    struct told told;        /* how the string ended */
    size_t n;                /* of so many bytes that were typed, */
    size_t closed;           /* and so many that were put behind them, to close a text */
    bool is_search_alone;    /* the F of an FS was left out */
    bool goes_on;            /* a longer run is under way */
    bool is_broken_off;      /* it took too long */
    bool is_done;            /* an exit has ended the session */
    bool is_free;            /* the window is where a person put it */
    bool is_missed;          /* it was asked to go to a change, and there is none */
    size_t length, pointer, place, output, line;
    size_t top_line;         /* the number of the window's first line, or 0 where it isn't wanted */
    size_t changes, came, gone; /* how often the last string changed the text, and how many bytes it put in and took out */
    struct shown_register registers[REGISTERS];
    struct same same;        /* of the text whose lines were counted */
    size_t from, count;      /* the bytes below are those from a place on */
    size_t tail;             /* the last bytes that were typed */
    uint8_t typed[TAIL];
    size_t old_count;        /* so many texts are gone */
    uint8_t bytes[SHOWN], marks[SHOWN + 1];
    struct old old[MOST_OLD];
};

/* TOKENS */

enum kind { NUMBER, VALUE, COMMAND, TEXT_COMMAND, BLOCK, BLANK, CUT, BAD };
struct token {
    enum kind kind;
    size_t from, to;
};

/* The token at a place, whatever it is; its end is behind its beginning. */
struct token token_at(token_reader *reader, const uint8_t *text, size_t n, size_t from);

/* What is run while a string is typed whose end is reached inside the command at `open_at`: n bytes in `to`, which has room for two more
   than the string has. */
struct closing {
    size_t n, closed;
    size_t left_out;         /* the place of the byte that was left out, or TECO_NOWHERE */
};
struct closing close_text(token_reader *reader, const uint8_t *text, size_t n, size_t open_at, uint8_t *to);

/* LOOKS */

/* A character of a text: how many of its bytes, how it is shown, and on how many cells. */
enum { GLYPH = 24 };
struct glyph {
    size_t bytes, cells;
    bool is_control, is_line_end;
    wchar_t shown[GLYPH];
};

/* The character at a place, of which none is whole that the byte at `split` is inside of. */
struct glyph glyph_at(const uint8_t *bytes, size_t n, size_t at, size_t split, size_t column);

/* A place that goes over the cells of rows. */
struct walk {
    size_t row, column, columns;
};

/* Goes to the row that has room for a glyph, and then behind it. */
void walk_to(struct walk *walk, const struct glyph *glyph);
void walk_behind(struct walk *walk, const struct glyph *glyph);

/* Reads the texts that are gone, in the text before the string ran. */
void old_read(const struct teco *t, struct view *view);

/* The character at a place of one of them, struck through, or the sign that it is cut off there; and whether there is one. */
struct glyph old_glyph(const struct old *old, size_t at);
bool old_has_more(const struct old *old, size_t at);

/* Goes over those from `next` on that are shown before a byte of the window, and puts `next` behind them. */
void walk_over_old(struct walk *walk, const struct view *view, size_t at, size_t *next);

/* The row of the window in which the pointer stands, or `rows` where it is below or above. */
size_t row_of_pointer(const struct view *view, size_t rows, size_t columns);

/* Where a window begins that is scrolled by so many rows, down, or up where they are negative. */
size_t scrolled(const struct teco *t, size_t top, int rows, size_t columns);

/* Looks at a session. The window follows the pointer, but not of a search that failed while it is typed, and not where it is scrolled. */
void look(const struct teco *t, struct view *view, const struct window *window);

/* Before a string is undone or cut, and after one is redone: what it changed is no longer as it was. */
void keep_same(const struct teco *t, struct view *view);

/* Marks what the last string changed in the window, and counts what it changed in all of the text. Tells how much it left as it was, or
   nothing where that takes too long; then nothing is counted. */
struct same mark_changes(const struct teco *t, struct view *view);

/* The place of the first change of the last string that is not before the edge, or of the last one before it. TECO_NOWHERE where there is
   none. */
size_t change_beyond(const struct teco *t, size_t length, size_t edge, enum seeks seeks);

/* The text of the search whose token begins at a place and is the last one of a string: where it is, and its size, or 0 where it is none. */
const uint8_t *search_text(token_reader *reader, const uint8_t *text, size_t n, size_t at, size_t *size);

/* Marks what a search for a text finds in the window. */
void mark_hits(struct view *view, const struct window *window, const uint8_t *text, size_t n, bool is_either_case);

/* Line ends of the text of a session, counted once for as long as it stays: lines_count does it, lines_forget drops it, and lines_before
   tells how many are before a place of a text of so many bytes, of which so much is the same. */
void lines_count(const struct teco *t);
void lines_forget(void);
bool lines_are_counted(void);
size_t lines_before(const struct teco *t, size_t place, size_t length, struct same same);

/* The page of a place of INPUT, from 1, or 0 where nothing is read. */
size_t page_at(const struct work *work, size_t place);
void pages_forget(void);

/* PREVIEWS */

struct preview {
    struct work *work;
    struct view *seen;       /* what was seen last */
    int link;                /* where the copy tells of a view, and is told of a string, or -1 */
    pid_t process;           /* the copy, or 0 */
    bool is_busy;            /* a view is awaited */
    bool is_for_strings;     /* the copy waits for the next string when that has come */
    struct timespec begun;
};

bool preview_open(struct preview *preview, struct work *work);
void preview_close(struct preview *preview);

/* Makes a copy that waits, if there is none: so that the first key after a string need not wait for it. False where the system makes
   none. */
bool preview_prepare(struct preview *preview);

/* Begins to try what is asked, in place of what was tried before. False where the system makes no copy. */
bool preview_begin(struct preview *preview, const struct request *request, const uint8_t *text);

/* Takes a view that has come. False where none will come. */
bool preview_came(struct preview *preview);

/* Ends the copy: before the session itself changes, and where it takes too long. */
void preview_end(struct preview *preview);

/* How long it may still take; at most 3 seconds. */
struct timespec preview_patience(const struct preview *preview);

/* The copy's side: the text that it was told of, and its tellings. */
void preview_tell(const struct view *view);
void preview_be_copy(struct work *work, const uint8_t *text);
bool preview_next(struct request *request);

/* Whether the next request has come. */
bool preview_is_awaited(void);

/* Milliseconds since a time. */
double since(const struct timespec *time);

/* THE SCREEN */

struct screen {
    struct work work;
    struct preview preview;
    struct view still;       /* of the session itself */
    struct line line;        /* the string that is typed, or the name of an output */
    struct bytes pending;    /* bytes of which more may come: an ESC alone, most times */
    struct keys keys;
    bool is_previewed;       /* what is shown is a preview, and not the session */
    bool is_stepping;        /* keys go through the steps of the last string, */
    uint64_t step, steps;    /* and are at this one of so many */
    bool is_naming, has_asked, has_warned, is_helped;
    bool is_other;           /* the string is another one than was tried last, */
    bool is_tentative;       /* and ends with an ESC that may begin a sequence */
    size_t top;              /* where the window begins, */
    bool is_scrolled;        /* where keys have scrolled it to, and no other key came since, */
    int scroll;              /* and by how many rows more than is shown */
    size_t help_page;
    enum seeks seeks;        /* the key that was pressed last goes to a change, */
    size_t edge;             /* from here on, or before */
    char message[400];
};

/* What is seen now, and the string that is drawn: the typed one, or the last one while its steps are gone through. */
const struct view *screen_view(const struct screen *screen);
const uint8_t *screen_line(const struct screen *screen, size_t *n);

/* What keys do to the session; each ends the preview first. */
void screen_look(struct screen *screen);
enum fate screen_run(struct screen *screen);

/* Runs the strings of the sources, until one is broken off, or an exit can't write; and says which of them failed first, or what was not run. */
enum fate screen_sources(struct screen *screen);
enum fate screen_name(struct screen *screen);
void screen_undo(struct screen *screen, bool is_redo);
void screen_step(struct screen *screen, uint64_t to);
void screen_end_steps(struct screen *screen, bool stays);

/* Whether a key stands for a string, with what is typed before it: RUN runs what is typed, or the last string once more; the others take a
   number. And running that. */
bool is_short(const struct screen *screen, enum sequence key);
enum fate screen_run_short(struct screen *screen, enum sequence key);

/* Whether a key names what the last string may have changed: a register by its letter or digit, or with ! the text. Among the steps it goes
   back to the one that comes before the last change of that; a capital letter goes on to the next one. */
bool is_for_finding(uint8_t key);
void screen_find(struct screen *screen, uint8_t key);
void screen_try(struct screen *screen);
void screen_scroll(struct screen *screen, int rows);
void screen_begin(struct screen *screen, struct request request, const uint8_t *text);

/* Takes keys and previews until the program ends. */
enum fate screen_converse(struct screen *screen);

/* Drawing. draw_begin wants the terminal set. */
bool draw_marks(struct marks *marks);
bool draw_begin(void);
bool is_in_color(void);
void draw_end(void);
void draw_size(struct window *window);
void draw(const struct screen *screen);
void draw_anew(void);

/* The parts of the screen; each is given its first row and how many it has. */
enum { PLAIN, CONTROLS, NEW, OLD, ERROR, GOOD, NUMBERS, COMMANDS, TEXTS, BLOCKS, HITS, PAIRS };
enum { STRIP = 26 };
void put_glyph(int row, int column, const struct glyph *glyph, unsigned long attributes, short pair);
int put_bytes(int row, int column, int end, const uint8_t *bytes, size_t n, unsigned long attributes, short pair);
void draw_window(const struct view *view, int top, int rows);
void turn_numbers(void); /* of lines: on, off */
void turn_old(void);     /* text that is struck through: on, off */
void window_edges(size_t *from, size_t *to); /* the place of the first byte of the text that was drawn last, and that behind the last one */
/* The pane beside the text: the history, the registers, what was printed, or nothing, as a key turns it. It needs a wide terminal. */
void draw_strip(const struct screen *screen, int top, int rows); /* the history */
bool has_pane(void);
void turn_pane(void);
void draw_pane(const struct screen *screen, int top, int rows);

/* Keeps the last bytes that strings have printed. */
void note_printed(const uint8_t *bytes, size_t n);
int typed_rows(const struct view *view);
void draw_typed(const struct view *view, int top, int rows);
int line_rows(const struct screen *screen);
void draw_line(const struct screen *screen, int top, int rows);
void draw_state(const struct screen *screen, int row);

/* The keys, and what the command does that ends the string, as docs/REFERENCE.md says it; all commands where nothing is typed. */
void draw_help(const struct screen *screen, int top, int rows);
bool help_has_more(void); /* than it had room for when it was drawn last */

#endif
