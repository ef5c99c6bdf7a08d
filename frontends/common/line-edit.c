/* The string that is typed, or a name: its cursor, and what keys do to it. */
#include "terminal.h"
#include <ctype.h>
#include <string.h>
#include <wchar.h>

/* The bytes before a place stay as they are. */
static void change_from(struct line *line, size_t at)
{
    line->kept = line->kept < at ? line->kept : at;
    line->escape = line->escape > at ? 0 : line->escape;
}

bool line_insert(struct line *line, const uint8_t *bytes, size_t n)
{
    struct bytes *text = &line->text;
    if (n == 0)
        return true;
    if (!bytes_reserve(text, n))
        return false;
    memmove(text->at + line->cursor + n, text->at + line->cursor, text->count - line->cursor);
    memcpy(text->at + line->cursor, bytes, n);
    change_from(line, line->cursor);
    text->count += n;
    line->cursor += n;
    return true;
}

void line_cut(struct line *line, size_t from, size_t to)
{
    struct bytes *text = &line->text;
    memmove(text->at + from, text->at + to, text->count - to);
    change_from(line, from);
    text->count -= to - from;
    line->cursor = from;
}

static enum edit insert(struct line *line, uint8_t byte)
{
    return line_insert(line, &byte, 1) ? LINE_EDITED : LINE_NO_MEMORY;
}

static enum edit cut(struct line *line, size_t from, size_t to)
{
    if (from == to)
        return LINE_REFUSED;
    line_cut(line, from, to);
    return LINE_EDITED;
}

/* The character at a place, and how many bytes it has: a byte that belongs to none is like a letter. */
static size_t character(const uint8_t *text, size_t n, size_t at, wchar_t *wide)
{
    mbstate_t state = {0};
    size_t taken = mbrtowc(wide, (const char *)text + at, n - at, &state);
    bool is_whole = taken > 0 && taken <= n - at;
    *wide = is_whole ? *wide : L'a';
    return is_whole ? taken : 1;
}

size_t cell_before(const uint8_t *text, size_t at)
{
    wchar_t wide;
    do {
        size_t from = at - 1;
        while (from > 0 && at - from < 4 && (text[from] & 0xC0) == 0x80)
            from--;
        bool is_whole = character(text, at, from, &wide) == at - from;
        at = is_whole ? from : at - 1;
        wide = is_whole ? wide : L'a';
    } while (at > 0 && text[at - 1] != LINE_FEED && wcwidth(wide) == 0);
    return at;
}

size_t cell_behind(const uint8_t *text, size_t n, size_t at)
{
    wchar_t wide;
    size_t bytes = character(text, n, at, &wide);
    do {
        at += bytes;
        bytes = at < n ? character(text, n, at, &wide) : 0;
    } while (bytes > 1 && wcwidth(wide) == 0);
    return at;
}

/* Where the line begins that the cursor is in, and where it ends. */
static size_t line_begin(const struct line *line, size_t at)
{
    while (at > 0 && line->text.at[at - 1] != LINE_FEED)
        at--;
    return at;
}

static size_t line_end(const struct line *line, size_t at)
{
    while (at < line->text.count && line->text.at[at] != LINE_FEED)
        at++;
    return at;
}

/* Where the word begins that is before the cursor, with the blanks behind it: letters and digits, or one other byte. */
static size_t word_begin(const struct line *line)
{
    const uint8_t *text = line->text.at;
    size_t at = line->cursor;
    while (at > 0 && isspace(text[at - 1]))
        at--;
    size_t end = at;
    while (at > 0 && (isalnum(text[at - 1]) || text[at - 1] >= 128))
        at--;
    return at == end && at > 0 ? at - 1 : at;
}

bool line_is_escaped(const struct line *line)
{
    enum { TWICE = 500000000 };
    struct timespec now;
    if (line->escape == 0 || line->escape != line->cursor)
        return false;
    (void)clock_gettime(CLOCK_MONOTONIC, &now);
    long long since = (long long)(now.tv_sec - line->escaped.tv_sec) * 1000000000 + (now.tv_nsec - line->escaped.tv_nsec);
    return line->cursor == line->text.count || since < TWICE;
}

/* An ESC is a byte, but a second one runs the string. Wherever they were pressed, they then are at its end. */
static enum edit escape(struct line *line)
{
    static const uint8_t PAIR[] = {ESCAPE, ESCAPE};
    bool is_pair = line_is_escaped(line);
    if (is_pair) {
        line_cut(line, line->cursor - 1, line->cursor);
        line->cursor = line->text.count;
    }
    if (!line_insert(line, PAIR, is_pair ? 2 : 1))
        return LINE_NO_MEMORY;
    line->escape = line->cursor;
    (void)clock_gettime(CLOCK_MONOTONIC, &line->escaped);
    return is_pair ? LINE_RUNS : LINE_EDITED;
}

/* A single Ctrl-G is a byte, and two of them drop the text. */
static enum edit ring(struct line *line)
{
    if (line->cursor == 0 || line->text.at[line->cursor - 1] != CONTROL('G'))
        return insert(line, CONTROL('G'));
    line_cut(line, line->cursor - 1, line->cursor);
    return LINE_DROPPED;
}

enum edit line_press(struct line *line, uint8_t key, bool is_name)
{
    size_t cursor = line->cursor, before = cursor > 0 ? cursor - 1 : 0, count = line->text.count;
    if (line->is_quoted) {
        line->is_quoted = false;
        return insert(line, key);
    }
    if (key == DELETE || key == tty_erase_key())
        return cut(line, before, cursor);
    switch (key) {
    case CONTROL('U'): return cut(line, line_begin(line, before), cursor);
    case CONTROL('W'): return cut(line, word_begin(line), cursor);
    case CONTROL('K'): return cut(line, cursor, line_end(line, cursor) + (cursor < count && line->text.at[cursor] == LINE_FEED));
    case CONTROL('C'): return LINE_DROPPED;
    case CONTROL('G'): return ring(line);
    case CONTROL('V'): line->is_quoted = true; return LINE_MOVED;
    case ESCAPE: return is_name ? insert(line, key) : escape(line);
    case LINE_FEED:
    case RETURN: return is_name ? LINE_NAMED : insert(line, LINE_FEED);
    default: return insert(line, key);
    }
}

enum edit line_move(struct line *line, enum sequence key)
{
    const uint8_t *text = line->text.at;
    size_t cursor = line->cursor, count = line->text.count, to = cursor;
    size_t behind = cursor < count ? cell_behind(text, count, cursor) : cursor;
    switch (key) {
    case LEFT: to = cursor > 0 ? cell_before(text, cursor) : 0; break;
    case RIGHT: to = behind; break;
    case HOME: to = line_begin(line, cursor) < cursor ? line_begin(line, cursor) : 0; break;
    case END: to = line_end(line, cursor) > cursor ? line_end(line, cursor) : count; break;
    case ERASE: return cut(line, cursor, behind);
    default: break;
    }
    if (to == cursor)
        return LINE_REFUSED;
    line->escape = 0;
    line->cursor = to;
    return LINE_MOVED;
}

enum edit line_paste(struct line *line, const uint8_t *bytes, size_t n, bool is_name)
{
    for (size_t at = 0, end; at < n; at = end + 1) {
        end = at;
        while (end < n && !(is_name && bytes[end] == LINE_FEED))
            end++;
        if (!line_insert(line, bytes + at, end - at))
            return LINE_NO_MEMORY;
    }
    return LINE_EDITED;
}

/* Where a pair of ESC begins, or the length of the text where there is none. */
static size_t pair_at(const struct bytes *text)
{
    size_t at = 0;
    while (at + 1 < text->count && (text->at[at] != ESCAPE || text->at[at + 1] != ESCAPE))
        at++;
    return at + 1 < text->count ? at : text->count;
}

size_t line_string(const struct line *line)
{
    size_t pair = pair_at(&line->text);
    return pair < line->text.count ? pair + 1 : pair;
}

bool line_split(struct line *line, struct bytes *rest)
{
    size_t first = pair_at(&line->text) + 2, last = line->text.count - 2;
    if (first < last && !bytes_add(rest, line->text.at + first, last - first))
        return false;
    line_cut(line, first, line->text.count);
    return true;
}

static void begin(struct line *line)
{
    line->cursor = line->text.count;
    line->kept = line->escape = line->recalled = 0;
    line->is_quoted = false;
}

void line_next(struct line *line, struct bytes *rest)
{
    (void)past_add(line->text.at, line->text.count - 2);
    bytes_free(&line->text);
    line->text = *rest;
    *rest = (struct bytes){0};
    begin(line);
}

void line_clear(struct line *line)
{
    line->text.count = 0;
    begin(line);
}

void line_drop(struct line *line)
{
    (void)past_add(line->text.at, line->text.count);
    line_clear(line);
}
