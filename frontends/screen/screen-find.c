/* Among the steps of the last string: the one that changed a register, or the text. */
#include "screen.h"
#include <stdio.h>

bool is_for_finding(uint8_t key)
{
    return (key >= 'a' && key <= 'z') || (key >= 'A' && key <= 'Z') || (key >= '0' && key <= '9') || key == '!';
}

/* How many steps come before a change that is for what is named; false where it is for something else. */
static bool is_change_of(const struct teco *t, size_t string, size_t k, uint8_t name, uint64_t *step)
{
    struct teco_change change;
    struct teco_splice splice;
    if (teco_change(t, string, k, &change) != 0)
        return false;
    *step = change.step;
    if (name != '!')
        return change.name == name;
    return teco_splice(t, string, k, &splice) == 0 && splice.gone + splice.came > 0;
}

/* Looks for the last such change before a step, or for the first one after it. */
static bool find(const struct teco *t, uint8_t name, bool is_on, uint64_t at, uint64_t *found)
{
    size_t cursor, count;
    uint64_t step;
    bool is_found = false;
    if (teco_cursor(t, &cursor) != 0 || cursor == 0 || teco_changes(t, cursor - 1, &count) != 0)
        return false;
    for (size_t k = 0; k < count && !(is_found && is_on); k++) {
        if (is_change_of(t, cursor - 1, k, name, &step) && (is_on ? step > at : step < at)) {
            is_found = true;
            *found = step;
        }
    }
    return is_found;
}

void screen_find(struct screen *screen, uint8_t key)
{
    bool is_on = key >= 'A' && key <= 'Z';
    uint8_t name = key >= 'a' && key <= 'z' ? (uint8_t)(key - 32) : key;
    uint64_t found = 0;
    if (find(&screen->work.session, name, is_on, screen->step, &found)) {
        screen_step(screen, found);
        return;
    }
    char what[] = {(char)name, '\0'};
    (void)snprintf(screen->message, sizeof screen->message, "no step %s this one changes %s  (ESC leaves the steps)",
        is_on ? "after" : "before", name == '!' ? "the text" : what);
}
