/* Closing the text that is being typed, so that the string can be run before its end has come. What is a text, and which byte ends it, the
   library says. */
#include "screen.h"
#include <string.h>

/* Whether the token at a place reaches to the end of the text, and is one whose text may be closed: not a jump, since half a name may be
   that of another tag, and not a tag. Tells whether it is an FS, and how many bytes its last text has. */
static bool is_text(token_reader *reader, const uint8_t *text, size_t n, size_t at, bool *is_replace, size_t *size)
{
    struct teco_token token;
    bool is_whole = reader(text, n, at, &token) == 0 && token.to == n;
    *is_replace = token.kind == TECO_TOKEN_REPLACE;
    *size = token.size;
    return is_whole && (*is_replace || token.kind == TECO_TOKEN_TEXT || token.kind == TECO_TOKEN_SET_TEXT);
}

/* Puts a byte at the end of the text, once or twice, by which the token at a place becomes whole. How often; 0 where that is no text. */
static size_t add_delimiter(token_reader *reader, uint8_t *text, size_t n, size_t at, bool *is_replace, size_t *size)
{
    for (size_t i = 0; i < n - at + 2; i++) {
        uint8_t delimiter = i == 0 ? ESCAPE : i == 1 ? 1 : text[at + i - 2];
        text[n] = text[n + 1] = delimiter;
        for (size_t count = 1; count <= 2; count++) {
            if (is_text(reader, text, n + count, at, is_replace, size))
                return count;
        }
    }
    return 0;
}

/* Leaves the F of an FS out, so that it is a search. The place where it stood. */
static size_t leave_f_out(uint8_t *text, size_t n, size_t at)
{
    while (at + 1 < n && (text[at] | 32) != 'f')
        at++;
    memmove(text + at, text + at + 1, n - at - 1);
    return at;
}

struct closing close_text(token_reader *reader, const uint8_t *text, size_t n, size_t open_at, uint8_t *to)
{
    struct closing none = {.n = n, .left_out = TECO_NOWHERE}, closing = none;
    bool is_replace;
    size_t size;
    memcpy(to, text, n);
    size_t count = add_delimiter(reader, to, n, open_at, &is_replace, &size);
    if (count == 0 || (count == 1 && size == 0 && !is_replace) || (count == 2 && !is_replace))
        return none;
    closing.closed = is_replace && size == 0 && count == 1 ? 0 : 1;
    closing.n = n + closing.closed;
    if (!is_replace || size > 0)
        return closing;
    closing.left_out = leave_f_out(to, closing.n, open_at);
    closing.n--;
    return is_text(reader, to, closing.n, open_at, &is_replace, &size) && size > 0 ? closing : none;
}
