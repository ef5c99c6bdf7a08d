/* Keys, the sequences that some of them send, and pastes: which is which, of what comes together. */
#include "terminal.h"
#include <stdlib.h>
#include <string.h>

static const char PASTE_BEGINS[] = "\33[200~", PASTE_ENDS[] = "\33[201~";
enum { MARK = 6 };

/* The bytes of a paste before its end, which are text and lie in a piece. */
struct piece {
    size_t count;
    uint8_t at[4096];
};

static enum fate put_piece(struct piece *piece, const struct taker *taker, void *to)
{
    size_t n = piece->count;
    piece->count = 0;
    return n > 0 ? taker->paste(to, piece->at, n) : GOES_ON;
}

/* Adds a byte of a paste to the piece, which has room for it and for a part of a mark. */
static void add_pasted(struct keys *keys, struct piece *piece, uint8_t byte)
{
    if (byte == PASTE_ENDS[keys->matched]) {
        keys->matched++;
        keys->is_pasted = keys->matched < MARK;
        return;
    }
    memcpy(piece->at + piece->count, PASTE_ENDS, keys->matched);
    piece->count += keys->matched;
    keys->matched = byte == ESCAPE;
    if (byte != ESCAPE)
        piece->at[piece->count++] = byte == RETURN ? LINE_FEED : byte;
}

/* Takes a paste, up to its end or for so far as it came. The place behind that. */
static size_t paste(struct keys *keys, const struct bytes *together, size_t at, const struct taker *taker, void *to, enum fate *fate)
{
    struct piece piece = {.count = 0};
    while (*fate == GOES_ON && at < together->count && keys->is_pasted) {
        add_pasted(keys, &piece, together->at[at++]);
        if (piece.count + MARK >= sizeof piece.at)
            *fate = put_piece(&piece, taker, to);
    }
    if (*fate == GOES_ON)
        *fate = put_piece(&piece, taker, to);
    return at;
}

bool keys_follow(struct keys *keys, uint8_t byte)
{
    const char *mark = keys->is_pasted ? PASTE_ENDS : PASTE_BEGINS;
    bool is_key = !keys->is_pasted;
    keys->matched = byte == (uint8_t)mark[keys->matched] ? keys->matched + 1 : byte == ESCAPE;
    if (keys->matched == MARK)
        *keys = (struct keys){.is_pasted = is_key};
    return is_key;
}

static bool begins_paste(const uint8_t *bytes, size_t n)
{
    return n >= MARK && memcmp(bytes, PASTE_BEGINS, MARK) == 0;
}

/* How long the sequence is that a key has sent: perhaps an ESC, and then ESC O or ESC [, numbers, and a last byte. 0 where none begins
   here, or not a whole one. */
static size_t sequence(const uint8_t *bytes, size_t n)
{
    size_t at = n > 1 && bytes[0] == ESCAPE && bytes[1] == ESCAPE;
    if (n < at + 3 || bytes[at] != ESCAPE || (bytes[at + 1] != '[' && bytes[at + 1] != 'O') || begins_paste(bytes, n))
        return 0;
    at += bytes[at + 1] == '[' && bytes[at + 2] == '[' ? 3 : 2;
    while (at < n && bytes[at] >= 0x20 && bytes[at] <= 0x3F)
        at++;
    return at < n && bytes[at] >= 0x40 && bytes[at] <= 0x7E ? at + 1 : 0;
}

/* Whether all that came together is sequences of keys. */
static bool are_sequences(const struct bytes *together)
{
    size_t at = 0, length;
    while ((length = sequence(together->at + at, together->count - at)) > 0)
        at += length;
    return at == together->count;
}

/* Whether no string has what this sequence is: numbers and ~, or 1; and a letter. Those that begin with [< are of a mouse. */
static bool is_never_text(const uint8_t *bytes, size_t n)
{
    if (n < 4 || bytes[2] == '[' || bytes[2] == '<')
        return n >= 4;
    for (size_t i = 2; i + 1 < n; i++) {
        if (bytes[i] != ';' && (bytes[i] < '0' || bytes[i] > '9'))
            return false;
    }
    return bytes[n - 1] == '~' || (bytes[2] == '1' && bytes[3] == ';');
}

/* How long the sequence is of a key that means something, or 0. */
static size_t known_sequence(const uint8_t *bytes, size_t n)
{
    size_t length = n > 1 && bytes[1] != ESCAPE ? sequence(bytes, n) : 0;
    return length > 0 && (sequence_of(bytes, length) != OTHER || is_never_text(bytes, length)) ? length : 0;
}

/* How long the sequence is that a key has sent here, among other bytes that came with it; or 0. ESC [ A can be text too: ESC ends a text, and
   the command `[A` follows. But no string begins with an ESC, a few bytes are no paste, and nobody writes two of them in a row. */
static size_t key_among(const struct line *line, const struct bytes *together, size_t at, bool is_next)
{
    enum { FEW = 16 };
    const uint8_t *bytes = together->at + at;
    size_t left = together->count - at, length = known_sequence(bytes, left);
    bool is_likely = is_next || line->text.count == 0 || together->count <= FEW || known_sequence(bytes + length, left - length) > 0;
    return length > 0 && (is_likely || is_never_text(bytes, length)) ? length : 0;
}

static enum fate take_sequences(const struct bytes *together, const struct taker *taker, void *to)
{
    enum fate fate = GOES_ON;
    for (size_t at = 0, length; fate == GOES_ON && at < together->count; at += length) {
        length = sequence(together->at + at, together->count - at);
        fate = taker->sequence(to, together->at + at, length);
    }
    return fate;
}

/* Takes the rest of a sequence that came in two parts: its ESC was taken for a byte, and goes out of the line again. False where this is
   no such rest. */
static bool take_late(struct line *line, const struct bytes *together, const struct taker *taker, void *to, enum fate *fate)
{
    struct bytes whole = {0};
    static const uint8_t FIRST = ESCAPE;
    if (!line_is_escaped(line) || together->count < 2 || (together->at[0] != '[' && together->at[0] != 'O'))
        return false;
    bool is_late = bytes_add(&whole, &FIRST, 1) && bytes_add(&whole, together->at, together->count) && are_sequences(&whole)
        && known_sequence(whole.at, whole.count) > 0;
    if (is_late) {
        line_cut(line, line->cursor - 1, line->cursor);
        *fate = take_sequences(&whole, taker, to);
    }
    bytes_free(&whole);
    return is_late;
}

enum fate keys_receive(struct keys *keys, struct line *line, const struct bytes *together, const struct taker *taker, void *to)
{
    enum fate fate = GOES_ON;
    size_t at = 0, length, last = SIZE_MAX;
    if (!keys->is_pasted && are_sequences(together))
        return take_sequences(together, taker, to);
    if (!keys->is_pasted && take_late(line, together, taker, to, &fate))
        return fate;
    while (fate == GOES_ON && at < together->count) {
        if (keys->is_pasted) {
            at = paste(keys, together, at, taker, to, &fate);
        } else if (begins_paste(together->at + at, together->count - at)) {
            *keys = (struct keys){.is_pasted = true};
            taker->begin_paste(to);
            at += MARK;
        } else if ((length = key_among(line, together, at, at == last)) > 0) {
            fate = taker->sequence(to, together->at + at, length);
            last = at += length;
        } else {
            fate = taker->press(to, together->at[at++]);
        }
    }
    return fate;
}

/* Whether these bytes are one character, or the first byte of one: then they are no part of a paste that comes in pieces. */
static bool is_character(const uint8_t *bytes, size_t n)
{
    size_t length = n == 0 || bytes[0] < 0xC0 ? 1 : bytes[0] < 0xE0 ? 2 : bytes[0] < 0xF0 ? 3 : 4;
    return n <= length && (n == 0 || bytes[0] != ESCAPE);
}

bool keys_are_open(const struct keys *keys, const struct bytes *together)
{
    return !keys->is_pasted && together->count > 0 && !is_character(together->at, together->count) && !are_sequences(together);
}

/* What keys send, behind ESC [ or ESC O. With Alt some send one more ESC before that. */
static const struct {
    const char *sent;
    enum sequence key;
} SEQUENCES[] = {{"A", UP}, {"B", DOWN}, {"C", RIGHT}, {"D", LEFT}, {"H", HOME}, {"1~", HOME}, {"7~", HOME}, {"F", END}, {"4~", END},
    {"8~", END}, {"5~", PAGE_UP}, {"6~", PAGE_DOWN}, {"3~", ERASE}, {"1;3A", OLDER}, {"1;3B", NEWER}, {"P", HELP}, {"11~", HELP},
    {"[A", HELP}, {"Q", PANE}, {"12~", PANE}, {"[B", PANE}, {"R", SAVE}, {"13~", SAVE}, {"[C", SAVE}, {"15~", NEXT_CHANGE}, {"[E", NEXT_CHANGE},
    {"17~", CHANGE_BEFORE}, {"18~", LINE_NUMBERS}, {"19~", OLD_TEXT}, {"1;2A", ROW_UP}, {"1;2B", ROW_DOWN}, {"a", ROW_UP}, {"b", ROW_DOWN},
    {"5;5~", SCREEN_UP}, {"6;5~", SCREEN_DOWN}, {"S", RUN}, {"14~", RUN}, {"[D", RUN}, {"1;3C", INDENT}, {"1;3D", OUTDENT}};

/* What a mouse tells: behind ESC [ < the number of a button, whose bits 4, 8 and 16 are keys that are held, and then the place. */
static enum sequence mouse(const uint8_t *bytes)
{
    long button = strtol((const char *)bytes + 3, NULL, 10) & ~28L;
    return button == 64 ? WHEEL_UP : button == 65 ? WHEEL_DOWN : MOUSE;
}

/* The key that it is with Alt. */
static enum sequence with_alt(enum sequence key)
{
    switch (key) {
    case UP: return OLDER;
    case DOWN: return NEWER;
    case RIGHT: return INDENT;
    case LEFT: return OUTDENT;
    default: return OTHER;
    }
}

enum sequence sequence_of(const uint8_t *bytes, size_t n)
{
    bool has_alt = n > 1 && bytes[1] == ESCAPE;
    enum sequence key = OTHER;
    if (n > 2 && bytes[1] == '[' && bytes[2] == '<')
        return mouse(bytes);
    for (size_t i = 0, from = has_alt ? 3 : 2; i < sizeof SEQUENCES / sizeof *SEQUENCES; i++) {
        if (n == strlen(SEQUENCES[i].sent) + from && memcmp(bytes + from, SEQUENCES[i].sent, n - from) == 0)
            key = SEQUENCES[i].key;
    }
    return !has_alt ? key : with_alt(key);
}
