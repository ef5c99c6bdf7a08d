/* The text that a string took out: its preview shows it struck through, before what came in its place. It is read in the text as it was, so the
   copy of the process has taken the string back by then. */
#include "screen.h"
#include <stdlib.h>

static const wchar_t STROKE = L'\x336', CUT_OFF = L'\x2026', LINE_END = L'\x21b5';

/* A long text is cut off, before a character. Where nothing can be struck through, none is shown. */
static void read_one(const struct teco *t, struct old *old)
{
    size_t left;
    bool can_strike = MB_CUR_MAX > 1 && wcwidth(STROKE) == 0;
    if (!can_strike || teco_text(t, old->stood, old->text, SHOWN_OF_OLD, &left) != 0 || left < old->count)
        return;
    old->shown = old->count <= SHOWN_OF_OLD ? old->count : SHOWN_OF_OLD - 1;
    while (old->count > SHOWN_OF_OLD && old->shown > 1 && (old->text[old->shown] & 0xC0) == 0x80)
        old->shown--;
}

void old_read(const struct teco *t, struct view *view)
{
    for (size_t i = 0; i < view->old_count; i++)
        read_one(t, &view->old[i]);
}

static bool is_hidden;

void turn_old(void)
{
    is_hidden = !is_hidden;
}

bool old_has_more(const struct old *old, size_t at)
{
    return !is_hidden && (at < old->shown || (at == old->shown && at > 0 && at < old->count));
}

static void strike(struct glyph *glyph)
{
    wchar_t plain[GLYPH];
    size_t n = 0;
    wmemcpy(plain, glyph->shown, GLYPH);
    for (size_t i = 0; plain[i] != 0 && n + 2 < GLYPH; i++) {
        glyph->shown[n++] = plain[i];
        if (wcwidth(plain[i]) > 0)
            glyph->shown[n++] = STROKE;
    }
    glyph->shown[n] = 0;
}

struct glyph old_glyph(const struct old *old, size_t at)
{
    struct glyph glyph = {.bytes = 1, .cells = 1, .shown = {CUT_OFF}};
    if (at == old->shown)
        return glyph;
    if (old->text[at] == TAB || old->text[at] == LINE_FEED)
        glyph.shown[0] = old->text[at] == TAB ? L' ' : LINE_END;
    else
        glyph = glyph_at(old->text, old->shown, at, SIZE_MAX, 0);
    strike(&glyph);
    return glyph;
}

void walk_over_old(struct walk *walk, const struct view *view, size_t at, size_t *next)
{
    for (; *next < view->old_count && view->old[*next].before <= at; (*next)++) {
        for (size_t i = 0; old_has_more(&view->old[*next], i);) {
            struct glyph glyph = old_glyph(&view->old[*next], i);
            walk_to(walk, &glyph);
            walk_behind(walk, &glyph);
            i += glyph.bytes;
        }
    }
}
