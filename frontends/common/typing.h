/* typing.h - a part of terminal.h: the string that is typed, and keys */
#ifndef TYPING_H
#define TYPING_H

/* THE STRING THAT IS TYPED */

/* Keys that send a sequence. */
enum sequence {
    OTHER, UP, DOWN, LEFT, RIGHT, HOME, END, PAGE_UP, PAGE_DOWN, ERASE, OLDER, NEWER, HELP, PANE, SAVE, LINE_NUMBERS, OLD_TEXT, NEXT_CHANGE,
    CHANGE_BEFORE, ROW_UP, ROW_DOWN, SCREEN_UP, SCREEN_DOWN, WHEEL_UP, WHEEL_DOWN, MOUSE, RUN, INDENT, OUTDENT
};

/* What is typed: a string, or a name. All zero it is empty. */
struct line {
    struct bytes text;
    size_t cursor;   /* where the next byte goes in */
    size_t kept;     /* so many bytes at the beginning are as they were when this was last made the length */
    size_t escape;   /* the place behind the ESC that a key put in, or 0, */
    struct timespec escaped; /* and when it did */
    size_t recalled; /* so many strings back is the one that was recalled, or 0 */
    bool is_quoted;  /* the next key is a byte as it is */
};

/* What a key comes to: it changed the text or the cursor, or there is nothing that it could do; the pair of ESC is whole, or the name; the
   text is to be dropped; memory is refused. */
enum edit { LINE_EDITED, LINE_MOVED, LINE_REFUSED, LINE_RUNS, LINE_NAMED, LINE_DROPPED, LINE_NO_MEMORY };

/* A key that is a byte, in a string or in a name. LINE_RUNS comes with the pair at the end, wherever it was pressed. */
enum edit line_press(struct line *line, uint8_t key, bool is_name);

/* A key that moves the cursor, or erases what is at it. */
enum edit line_move(struct line *line, enum sequence key);

/* Bytes that are text, whatever they are. A name gets no line ends. */
enum edit line_paste(struct line *line, const uint8_t *bytes, size_t n, bool is_name);

/* Puts the string that was typed before the one that was recalled in the place of the text, or the one after it. */
enum edit line_recall(struct line *line, bool is_older);

/* Puts bytes in at the cursor, or takes some out. False where memory is refused. */
bool line_insert(struct line *line, const uint8_t *bytes, size_t n);
void line_cut(struct line *line, size_t from, size_t to);

/* Whether an ESC would make a pair with the one before it: at the end of the text, or elsewhere if that came within half a second. There a
   person who has seen what an ESC does may press two more. */
bool line_is_escaped(const struct line *line);

/* The length of the string that a pair of ESC runs: with a pair that was pasted it ends at that, and has its first ESC. */
size_t line_string(const struct line *line);

/* Once the pair is whole: leaves the first string with its pair, and puts what follows into `rest`. False where memory is refused. */
bool line_split(struct line *line, struct bytes *rest);

/* Goes on to what followed the string that was run, or drops what is typed: both keep it to be recalled. line_clear doesn't. */
void line_next(struct line *line, struct bytes *rest);
void line_drop(struct line *line);
void line_clear(struct line *line);

/* Where the cell begins that ends before a place, with the marks that combine with it; and where the one ends that begins there. */
size_t cell_before(const uint8_t *text, size_t at);
size_t cell_behind(const uint8_t *text, size_t n, size_t at);

/* KEYS */

/* Who takes keys: a key, a sequence that a key has sent, bytes that are pasted, and word that a paste begins. */
struct taker {
    enum fate (*press)(void *to, uint8_t key);
    enum fate (*sequence)(void *to, const uint8_t *bytes, size_t n);
    enum fate (*paste)(void *to, const uint8_t *bytes, size_t n);
    void (*begin_paste)(void *to);
};

/* Which key has sent a sequence. */
enum sequence sequence_of(const uint8_t *bytes, size_t n);

/* What of a paste has come. */
struct keys {
    bool is_pasted;  /* what comes is a paste, */
    size_t matched;  /* and so many of the last bytes may be the mark of its end, or of its beginning if none came */
};

/* Follows the marks of pastes over the byte that comes next, which is taken later. Whether it is a key, and not pasted. */
bool keys_follow(struct keys *keys, uint8_t byte);

/* Gives what came together to the taker, who puts it into this line: sequences as far as they can be told from text, keys and pastes. */
enum fate keys_receive(struct keys *keys, struct line *line, const struct bytes *together, const struct taker *taker, void *to);

/* Whether more may come of what begins as these bytes do: of a sequence or of a mark of a paste. */
bool keys_are_open(const struct keys *keys, const struct bytes *together);

#endif
