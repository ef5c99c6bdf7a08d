/* Which bytes of the window the last string put in, and where it took some out. Its changes are gone through backward, while the pieces of
   the window are followed to where they stood before each of them. */
#include "screen.h"
#include <string.h>

enum { PIECES = 4096, MOST_CHANGES = 300000 };

/* So many bytes from `shown` on, among those of the window and the one before it, which stood at a place of the text. */
struct piece {
    size_t shown, count, stood;
};

/* The pieces, in the order of their places, and the view whose bytes they are. They don't tell where all old text stood, if there were too many,
   or a page was read. */
struct pieces {
    struct view *view;
    size_t first;            /* the window begins here among the bytes: at 1, or at 0 where the text begins */
    uint8_t marks[SHOWN + 2];
    bool is_vague;
    size_t count;
    struct piece at[PIECES];
};

/* Bytes that an undo would take out of the text at a place, and those that it would put in. */
struct splice {
    size_t at, gone, came;
    bool is_marked;
};

/* Whether change k is for the place in the input, in this step. */
static bool is_of_pages(const struct teco *t, size_t string, size_t k, uint64_t step)
{
    struct teco_change change;
    return teco_change(t, string, k, &change) == 0 && change.kind == TECO_KIND_PAGES && change.step == step;
}

/* Whether change k is for a page that was read: its step moves the place in the input, too. Such bytes are not marked. */
static bool is_of_page(const struct teco *t, size_t string, size_t k)
{
    struct teco_change change;
    if (teco_change(t, string, k, &change) != 0)
        return false;
    return (k > 0 && is_of_pages(t, string, k - 1, change.step)) || is_of_pages(t, string, k + 1, change.step);
}

/* Puts what is left of a piece in its place, before and behind the bytes that came. */
static void cut_piece(struct pieces *pieces, size_t i, size_t first, size_t last, const struct splice *splice)
{
    struct piece piece = pieces->at[i];
    size_t end = piece.stood + piece.count;
    struct piece before = {piece.shown, first - piece.stood, piece.stood};
    struct piece after = {piece.shown + (last - piece.stood), end - last, splice->at + splice->came};
    size_t parts = (before.count > 0) + (after.count > 0);
    if (parts == 2 && pieces->count == PIECES) {
        pieces->is_vague = true;
        return;
    }
    memmove(pieces->at + i + parts, pieces->at + i + 1, (pieces->count - i - 1) * sizeof *pieces->at);
    pieces->count = pieces->count - 1 + parts;
    if (before.count > 0)
        pieces->at[i] = before;
    if (after.count > 0)
        pieces->at[i + (before.count > 0)] = after;
}

/* Follows a piece over the undo of a splice. False where the piece, and all before it, stand before the splice. */
static bool follow_piece(struct pieces *pieces, size_t i, const struct splice *splice)
{
    struct piece piece = pieces->at[i];
    size_t end = piece.stood + piece.count;
    if (splice->at >= end)
        return false;
    if (splice->is_marked && splice->gone == 0 && splice->at >= piece.stood)
        pieces->marks[piece.shown + (splice->at - piece.stood)] |= MARK_GONE_BEFORE;
    if (splice->at + splice->gone <= piece.stood) {
        pieces->at[i].stood = piece.stood - splice->gone + splice->came;
        return true;
    }
    size_t first = splice->at > piece.stood ? splice->at : piece.stood;
    size_t last = splice->at + splice->gone < end ? splice->at + splice->gone : end;
    if (splice->is_marked && first < last)
        memset(pieces->marks + piece.shown + (first - piece.stood), MARK_CAME, last - first);
    cut_piece(pieces, i, first, last, splice);
    return true;
}

/* Less is as it was with one more splice, which is undone in a text of so many bytes; and how many there are then. */
static size_t narrow(struct same *same, const struct splice *splice, size_t length)
{
    size_t behind = length - splice->at - splice->gone;
    same->front = splice->at < same->front ? splice->at : same->front;
    same->back = behind < same->back ? behind : same->back;
    return length - splice->gone + splice->came;
}

/* What change k of a string is for bytes of the text. False where it is for none. */
static bool splice_of(const struct teco *t, size_t string, size_t k, struct splice *splice)
{
    struct teco_splice told;
    if (teco_splice(t, string, k, &told) != 0 || (told.gone == 0 && told.came == 0))
        return false;
    *splice = (struct splice){.at = told.at, .gone = told.gone, .came = told.came, .is_marked = !is_of_page(t, string, k)};
    return true;
}

static void count_change(struct view *view, const struct splice *splice)
{
    view->changes++;
    view->came += splice->gone;
    view->gone += splice->came;
}

/* Notes what is gone of the text between two pieces, or before the first one where the text begins. */
static void note_old(const struct pieces *pieces)
{
    struct view *view = pieces->view;
    size_t before = 0, stood = 0;
    for (size_t i = 0; i < pieces->count && view->old_count < MOST_OLD; i++) {
        struct piece piece = pieces->at[i];
        if ((i > 0 || view->from == 0) && piece.stood > stood)
            view->old[view->old_count++] = (struct old){.before = before - pieces->first, .stood = stood, .count = piece.stood - stood};
        before = piece.shown + piece.count;
        stood = piece.stood + piece.count;
    }
}

/* All is one piece, with the byte before the window and the end of the text, where that is in the window. */
static void begin_pieces(struct pieces *pieces, struct view *view)
{
    size_t first = view->from > 0;
    pieces->view = view;
    pieces->first = first;
    pieces->is_vague = false;
    pieces->count = 1;
    pieces->at[0] = (struct piece){0, first + view->count + (view->from + view->count == view->length), view->from - first};
    memset(pieces->marks, 0, first + view->count + 1);
    memset(view->marks, 0, view->count + 1);
}

/* Gives the view what is marked. */
static void end_pieces(struct pieces *pieces)
{
    memcpy(pieces->view->marks, pieces->marks + pieces->first, pieces->view->count + 1);
    if (!pieces->is_vague)
        note_old(pieces);
}

struct same mark_changes(const struct teco *t, struct view *view)
{
    static struct pieces pieces;
    struct splice splice;
    size_t strings, changes, length = view->length;
    struct same same = {length, length};
    view->changes = view->came = view->gone = view->old_count = 0;
    begin_pieces(&pieces, view);
    if (teco_cursor(t, &strings) != 0 || strings == 0 || teco_changes(t, strings - 1, &changes) != 0)
        return same;
    if (changes > MOST_CHANGES)
        return (struct same){0};
    for (size_t k = changes; k-- > 0;) {
        if (!splice_of(t, strings - 1, k, &splice))
            continue;
        length = narrow(&same, &splice, length);
        if (splice.is_marked)
            count_change(view, &splice);
        pieces.is_vague |= !splice.is_marked;
        for (size_t i = pieces.count; i-- > 0 && follow_piece(&pieces, i, &splice);)
            continue;
    }
    end_pieces(&pieces);
    return same;
}

/* Follows the part of the text behind the edge, up to the first change that is known of it, over the undo of a splice. Whether it lies in
   there: then the part ends at it. */
static bool end_part(struct piece *part, const struct splice *splice)
{
    size_t end = part->stood + part->count, gone_to = splice->at + splice->gone;
    if (splice->at > end || (splice->at == end && splice->gone > 0))
        return false;
    if (gone_to < part->stood || (gone_to == part->stood && splice->gone > 0)) {
        part->stood = part->stood - splice->gone + splice->came;
        return false;
    }
    part->count = splice->at > part->stood ? splice->at - part->stood : 0;
    part->stood += splice->at < part->stood ? splice->at - part->stood : 0;
    return true;
}

/* The same of the part before the edge, which begins behind the last change that is known of it. */
static bool begin_part(struct piece *part, const struct splice *splice)
{
    size_t end = part->stood + part->count, gone_to = splice->at + splice->gone;
    if (splice->at >= end)
        return false;
    if (gone_to < part->stood || (gone_to == part->stood && splice->gone > 0)) {
        part->stood = part->stood - splice->gone + splice->came;
        return false;
    }
    size_t last = gone_to < end ? gone_to : end;
    part->shown += last - part->stood;
    part->count = end - last;
    part->stood = splice->at + splice->came;
    return true;
}

size_t change_beyond(const struct teco *t, size_t length, size_t edge, enum seeks seeks)
{
    bool is_next = seeks == TO_NEXT_CHANGE;
    struct piece part = {0, edge, 0};
    struct splice splice;
    size_t strings, changes, found = TECO_NOWHERE;
    if (is_next)
        part = (struct piece){edge, length - edge, edge};
    if (teco_cursor(t, &strings) != 0 || strings == 0 || teco_changes(t, strings - 1, &changes) != 0 || changes > MOST_CHANGES)
        return found;
    for (size_t k = changes; k-- > 0;) {
        if (!splice_of(t, strings - 1, k, &splice))
            continue;
        bool is_there = is_next ? end_part(&part, &splice) : begin_part(&part, &splice);
        if (is_there && splice.is_marked)
            found = is_next ? part.shown + part.count : part.shown - (splice.gone > 0);
    }
    return found;
}
