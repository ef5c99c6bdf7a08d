/*
 * term-editor.h - the parts of teco-term
 *
 * teco-term.c has the program; term-press.c says what its keys do, term-strings.c shows what a string comes to, and term-line.c draws the
 * string that is being typed.
 */
#ifndef TERM_EDITOR_H
#define TERM_EDITOR_H

#include "terminal.h"

/* What of a line is on the screen, from its prompt on. All zero it is nothing, and the terminal's cursor is at the beginning of a row. */
struct drawing {
    const char *prompt;      /* `*` where it is none */
    size_t drawn, cursor;    /* so many bytes were drawn, and the terminal's cursor is at this one, */
    size_t row, column, top; /* which is here; and the first row that the screen still has */
    size_t rows, columns;    /* of the terminal, when it was drawn; none are drawn where it is 0 */
    bool is_cut;             /* the last rows don't fit below the cursor's */
    bool lost;               /* the cursor is anywhere */
};

/* Brings the screen to the line and its cursor. GOES_ON, SHOW_FAULT or NO_MEMORY. */
enum fate line_show(struct line *line, struct drawing *drawing);

/* Shows a text as it would be typed, from the beginning of a line on. The same. */
enum fate line_show_text(const struct bytes *text);

/* Room for a sentence that says why something isn't done. */
enum { WHY = 400 };

struct editor {
    struct work work;
    struct line line;
    struct drawing drawing;
    struct keys keys;
    struct bytes last; /* the last string, */
    struct told told;  /* how it ended, */
    bool has_failed;   /* and if it ended by a code, and no key came after that */
    bool has_asked;    /* whether to leave with edits, and no key came after that */
    bool has_warned;   /* that a file is there which an exit would replace, and no key came after that */
    bool is_naming;    /* what is typed is the name of an output, since the one before can't be written */
};

/* Does what a string asks, which has the first ESC of its pair, and shows what it types and what there is to tell. */
enum fate serve(struct editor *editor, const uint8_t *text, size_t n);

/* Does what the strings of the sources ask, one after another, until one is broken off, or an exit can't write; and says what was not run. */
enum fate serve_sources(struct editor *editor);

/* Writes to the file whose name was typed. */
enum fate name_output(struct editor *editor, const uint8_t *name, size_t n);

/* Shows the last string, which failed, up to where it did. */
enum fate show_failed(const struct editor *editor);

/* Waits for keys and does what they say, until the program ends. */
enum fate converse(struct editor *editor);

#endif
