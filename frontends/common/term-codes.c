/* The codes by which strings end, by their numbers, with the sentences that docs/ERRORS.md gives them. Four say what it is at a terminal. */
#include "terminal.h"
#include <stdio.h>

static const struct code {
    const char *letters, *sentence;
} CODES[] = {
    {"???", "an answer that has no sentence"},
    {"ARG", "wrong argument, or wrong arithmetic"},
    {"BNI", "> without its iteration"},
    {"CPQ", "nothing on the push-down list"},
    {"DTB", "delete past the buffer"},
    {"ICE", "search text not allowed"},
    {"IIA", "insert with argument and text"},
    {"ILL", "no such command"},
    {"IPA", "P with a number of at most 0"},
    {"IQC", "no such test"},
    {"IQN", "no such register"},
    {"ISA", "search count not allowed"},
    {"ISS", "no search text yet"},
    {"MRP", "parenthesis open at a command"},
    {"NAE", "no number before ="},
    {"NAQ", "no number before a test"},
    {"NAU", "no number before U"},
    {"OVF", "number out of range"},
    {"DVZ", "division by zero"},
    {"PDO", "too many open or pushed"},
    {"POP", "place outside the buffer"},
    {"SNI", "; without an iteration"},
    {"SRH", "the search found nothing"},
    {"TAG", "no such tag to go to"},
    {"UTC", "text ends inside a command or block"},
    {"YCA", "page would replace a nonempty buffer"},
    {"BIG", "a text or the output past its limit"},
    {"LIM", "step limit"},
    {"MEM", "memory refused"},
    {"TTY", "more is typed than there is room for"},
    {"NTU", "nothing is left to undo"},
    {"NTR", "nothing is left to redo"},
    {"END", "an exit has ended the session"},
};
static const struct code NOT_BEGUN = {"MEM", "memory refused: the string was not begun, and nothing has changed"};

static const struct code *code_of(uint8_t number)
{
    return number == TECO_NOT_BEGUN ? &NOT_BEGUN : &CODES[number <= TECO_END ? number : 0];
}

const char *code_letters(uint8_t number)
{
    return code_of(number)->letters;
}

const char *code_sentence(uint8_t number)
{
    return code_of(number)->sentence;
}

const char *told_sentence(const struct told *told)
{
    return told->is_broken_off ? "broken off by Ctrl-C" : code_sentence(told->code);
}

void told_macros(const struct told *told, char *text, size_t size)
{
    enum { NAMED = 3 };
    size_t named = told->calls < NAMED ? told->calls : NAMED, used = 0;
    text[0] = '\0';
    for (size_t i = 0; i < named && used < size; i++)
        used += (size_t)snprintf(text + used, size - used, "%sM%c", i > 0 ? " of " : "", told->open[i].name);
    if (told->calls > named && used < size)
        (void)snprintf(text + used, size - used, " of %zu more", told->calls - named);
}
