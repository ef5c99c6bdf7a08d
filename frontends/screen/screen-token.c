/* The string that is typed, token by token, as the library reads it; and what closes the text that is open at its end. */
#include "screen.h"
#include <string.h>

/* How many bytes of a fault there are: the least that are one. */
static size_t fault_size(token_reader *reader, const uint8_t *text, size_t n)
{
    size_t count = 1;
    struct teco_token token;
    while (count < n && reader(text, count, 0, &token) == CODE_UTC)
        count++;
    return count;
}

struct token token_at(token_reader *reader, const uint8_t *text, size_t n, size_t at)
{
    static const enum kind OF[] = {[TECO_TOKEN_DIGITS] = NUMBER, [TECO_TOKEN_VALUE] = VALUE, [TECO_TOKEN_ARITHMETIC] = VALUE,
        [TECO_TOKEN_LEVEL] = VALUE, [TECO_TOKEN_COMMAND] = COMMAND, [TECO_TOKEN_REGISTER] = COMMAND, [TECO_TOKEN_BYTE] = VALUE,
        [TECO_TOKEN_TEXT] = TEXT_COMMAND, [TECO_TOKEN_JUMP] = TEXT_COMMAND, [TECO_TOKEN_SET_TEXT] = TEXT_COMMAND,
        [TECO_TOKEN_REPLACE] = TEXT_COMMAND, [TECO_TOKEN_MARK] = BLOCK, [TECO_TOKEN_TEST] = BLOCK, [TECO_TOKEN_TAG] = TEXT_COMMAND,
        [TECO_TOKEN_ESCAPE] = BLANK};
    struct teco_token told;
    uint8_t answer = reader(text, n, at, &told);
    if (told.from > at)
        return (struct token){.kind = BLANK, .from = at, .to = told.from};
    struct token token = {.kind = BLANK, .from = told.from, .to = told.to};
    if (answer == 0)
        token.kind = OF[told.kind];
    else if (answer == CODE_UTC)
        token.kind = CUT;
    else if (answer != TECO_NO_TOKEN)
        token = (struct token){.kind = BAD, .from = at, .to = at + fault_size(reader, text + at, n - at)};
    return token;
}
