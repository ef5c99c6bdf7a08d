/* The strings of a session, in the order in which they were run, with how each of them ended: what the screen shows of the history. */
#include "terminal.h"
#include <stdlib.h>
#include <string.h>

/* Where the texts end of the strings that are not undone. */
static size_t end_of_texts(const struct journal *journal)
{
    return journal->cursor > 0 ? journal->strings[journal->cursor - 1].end : 0;
}

bool journal_reserve(struct journal *journal, size_t n)
{
    if (journal->cursor == journal->room) {
        struct kept *more = realloc(journal->strings, (2 * journal->room + 64) * sizeof *more);
        if (more == NULL)
            return false;
        journal->strings = more;
        journal->room += journal->room + 64;
    }
    size_t texts = end_of_texts(journal);
    return n + texts <= journal->texts.count || bytes_reserve(&journal->texts, n + texts - journal->texts.count);
}

void journal_note(struct journal *journal, const uint8_t *text, size_t n, uint8_t code, uint64_t steps)
{
    size_t from = end_of_texts(journal);
    if (n > 0)
        memcpy(journal->texts.at + from, text, n);
    journal->texts.count = from + n;
    journal->strings[journal->cursor] = (struct kept){.end = from + n, .steps = steps, .code = code};
    journal->count = ++journal->cursor;
}

void journal_move(struct journal *journal, size_t cursor)
{
    journal->cursor = cursor < journal->count ? cursor : journal->count;
}

void journal_rewind(struct journal *journal, uint64_t steps)
{
    journal->count = journal->cursor;
    if (journal->cursor == 0 || journal->strings[journal->cursor - 1].steps <= steps)
        return;
    struct kept *last = &journal->strings[journal->cursor - 1];
    last->steps = steps;
    last->code = 0;
}

void journal_want(struct journal *journal, bool is_wanted)
{
    journal->is_wanted = is_wanted;
}

void journal_free(struct journal *journal)
{
    bytes_free(&journal->texts);
    free(journal->strings);
    *journal = (struct journal){0};
}

const uint8_t *journal_text(const struct journal *journal, size_t i, size_t *n)
{
    size_t from = i > 0 ? journal->strings[i - 1].end : 0;
    *n = journal->strings[i].end - from;
    return journal->texts.at + from;
}
