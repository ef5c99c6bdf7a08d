/* How bytes are shown: how many of them are a character, and which cells it takes. */
#include "screen.h"
#include <wctype.h>

enum { TAB_STOP = 8, MARKS = 4 };

static void show_control(struct glyph *glyph, uint8_t byte)
{
    glyph->is_control = true;
    glyph->cells = byte == ESCAPE ? 1 : 2;
    glyph->shown[0] = byte == ESCAPE ? L'$' : L'^';
    glyph->shown[1] = byte == ESCAPE ? 0 : byte ^ 64;
}

static void show_number(struct glyph *glyph, uint8_t byte)
{
    static const char DIGITS[] = "0123456789ABCDEF";
    glyph->is_control = true;
    glyph->cells = 4;
    glyph->shown[0] = L'\\';
    glyph->shown[1] = L'x';
    glyph->shown[2] = (wchar_t)DIGITS[byte >> 4];
    glyph->shown[3] = (wchar_t)DIGITS[byte & 15];
}

/* Characters that take no cell, or turn the direction of what follows: a text with them would look like another one. */
static const struct {
    uint32_t first, last;
} HIDDEN[] = {{0xAD, 0xAD}, {0x34F, 0x34F}, {0x600, 0x605}, {0x61C, 0x61C}, {0x6DD, 0x6DD}, {0x70F, 0x70F}, {0x115F, 0x1160},
    {0x17B4, 0x17B5}, {0x180B, 0x180F}, {0x200B, 0x200F}, {0x2028, 0x202E}, {0x2060, 0x206F}, {0x3164, 0x3164}, {0xFEFF, 0xFEFF},
    {0xFFA0, 0xFFA0}, {0xFFF9, 0xFFFB}, {0x110BD, 0x110BD}, {0x1BCA0, 0x1BCA3}, {0x1D173, 0x1D17A}, {0xE0000, 0xE0FFF}};

static bool is_hidden(wchar_t wide)
{
    for (size_t i = 0; i < sizeof HIDDEN / sizeof *HIDDEN; i++) {
        if ((uint32_t)wide >= HIDDEN[i].first && (uint32_t)wide <= HIDDEN[i].last)
            return true;
    }
    return false;
}

/* By its number, as \u202E or \U000E0001. */
static void show_hidden(struct glyph *glyph, size_t taken, wchar_t wide)
{
    glyph->is_control = true;
    glyph->bytes = taken;
    size_t room = sizeof glyph->shown / sizeof *glyph->shown;
    glyph->cells = (size_t)swprintf(glyph->shown, room, wide > 0xFFFF ? L"\\U%08X" : L"\\u%04X", (unsigned)wide);
}

/* The character at a place, and its bytes: 0 where none is, or where the byte at `split` is inside of it. */
static size_t decode(const uint8_t *bytes, size_t n, size_t at, size_t split, wchar_t *wide)
{
    mbstate_t state = {0};
    size_t taken = mbrtowc(wide, (const char *)bytes + at, n - at, &state);
    bool is_whole = taken > 0 && taken <= n - at && !(split > at && split < at + taken);
    return is_whole ? taken : 0;
}

/* A character of several bytes, with the marks that combine with it. */
static bool show_wide(struct glyph *glyph, const uint8_t *bytes, size_t n, size_t at, size_t split)
{
    wchar_t wide;
    size_t taken = decode(bytes, n, at, split, &wide);
    int cells = taken > 0 ? wcwidth(wide) : 0;
    if (taken > 0 && is_hidden(wide)) {
        show_hidden(glyph, taken, wide);
        return true;
    }
    if (cells <= 0)
        return false;
    glyph->bytes = taken;
    glyph->cells = (size_t)cells;
    glyph->shown[0] = wide;
    return true;
}

static void add_marks(struct glyph *glyph, const uint8_t *bytes, size_t n, size_t at, size_t split)
{
    for (size_t i = 1; i <= MARKS && at + glyph->bytes < n && at + glyph->bytes != split && bytes[at + glyph->bytes] >= 128; i++) {
        wchar_t wide;
        size_t taken = decode(bytes, n, at + glyph->bytes, split, &wide);
        if (taken == 0 || wcwidth(wide) != 0 || !iswprint((wint_t)wide) || is_hidden(wide))
            return;
        glyph->shown[i] = wide;
        glyph->bytes += taken;
    }
}

struct glyph glyph_at(const uint8_t *bytes, size_t n, size_t at, size_t split, size_t column)
{
    struct glyph glyph = {.bytes = 1, .cells = 1};
    uint8_t byte = bytes[at];
    if (byte == LINE_FEED) {
        glyph.is_line_end = true;
        glyph.shown[0] = L' ';
    } else if (byte == TAB) {
        glyph.cells = TAB_STOP - column % TAB_STOP;
        wmemset(glyph.shown, L' ', glyph.cells);
    } else if (byte < 32 || byte == DELETE) {
        show_control(&glyph, byte);
    } else if (byte < 128) {
        glyph.shown[0] = byte;
        add_marks(&glyph, bytes, n, at, split);
    } else if (show_wide(&glyph, bytes, n, at, split)) {
        if (!glyph.is_control)
            add_marks(&glyph, bytes, n, at, split);
    } else {
        show_number(&glyph, byte);
    }
    return glyph;
}

void walk_to(struct walk *walk, const struct glyph *glyph)
{
    if (walk->column + glyph->cells > walk->columns && walk->column > 0) {
        walk->row++;
        walk->column = 0;
    }
}

void walk_behind(struct walk *walk, const struct glyph *glyph)
{
    walk->column += glyph->cells;
    if (glyph->is_line_end) {
        walk->row++;
        walk->column = 0;
    }
}
