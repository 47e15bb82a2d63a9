/* A drawing as text: a column for each sample. */
#include "draw.h"

#include <string.h>

#include "symbols.h"

enum { LABEL_COLUMNS = 9, TEXT_COLUMNS = 100, CELL_BYTES = 4 };
enum row { SCALE, HIGH, LOW, BITS, SYMBOL, NIBBLE, DAMAGE, ROWS };

static const char *const labels[ROWS] = {"sample", "high", "low", "bits", "symbols", "nibbles", "damage"};

/* Each cell is one character, which may take three bytes. */
struct page {
    char cell[ROWS][PANEL_SAMPLES][CELL_BYTES];
};

static void put(struct page *page, enum row row, size_t column, const char *character)
{
    if (column < PANEL_SAMPLES)
        snprintf(page->cell[row][column], CELL_BYTES, "%s", character);
}

static void put_word(struct page *page, enum row row, size_t column, const char *word)
{
    for (size_t i = 0; word[i] != '\0'; i++)
        put(page, row, column + i, (char[]){word[i], '\0'});
}

/* A word in the middle of some columns. */
static void put_middle(struct page *page, enum row row, size_t from, size_t to, const char *word)
{
    size_t length = strlen(word);
    size_t room = to - from;
    put_word(page, row, from + (room > length ? (room - length) / 2 : 0), word);
}

static void put_levels(struct page *page, const struct capture *capture, size_t first, size_t samples)
{
    char number[24];
    for (size_t i = first; i < first + samples; i++) {
        bool high = is_high(capture, i);
        bool edge = i > 0 && is_high(capture, i - 1) != high;
        size_t column = i - first;
        put(page, HIGH, column, edge ? high ? "┌" : "┐" : high ? "─" : " ");
        put(page, LOW, column, edge ? high ? "┘" : "└" : high ? " " : "─");
        if (i % 10 == 0 && column + 4 < PANEL_SAMPLES) {
            snprintf(number, sizeof number, "%zu", i);
            put_word(page, SCALE, column, number);
        }
    }
}

static void put_bits(struct page *page, const struct layout *layout, size_t first)
{
    for (unsigned i = 0; i < layout->count; i++) {
        const struct bit *bit = &layout->bits[i];
        put_middle(page, BITS, bit->from - first, bit->to - first, bit->set ? "1" : "0");
    }
    if (layout->overlong) {
        const struct bit *bit = &layout->bits[layout->count - 1];
        put_middle(page, DAMAGE, bit->from - first, bit->to - first, "^ too many");
    }
}

/* Symbol n with its nibble, and what is wrong with it. */
static void put_symbol(struct page *page, const struct drawing *drawing, unsigned n, size_t first)
{
    const struct bit *bits = &drawing->layout->bits[1 + 5 * n];
    size_t from = bits[0].from - first;
    size_t to = bits[4].to - first;
    unsigned nibble = nibble_at(drawing->reply->word, n);
    char text[DAMAGE_BYTES];
    for (size_t column = from + 1; column + 1 < to; column++)
        put(page, SYMBOL, column, "─");
    put(page, SYMBOL, from, "├");
    put(page, SYMBOL, to - 1, "┤");
    snprintf(text, sizeof text, " %02x ", symbol_at(drawing->reply->word, n));
    put_middle(page, SYMBOL, from, to, text);
    snprintf(text, sizeof text, nibble == NO_NIBBLE ? "?" : "%x", nibble);
    put_middle(page, NIBBLE, from, to, text);
    const char *damage = damage_of(drawing->reply, n, text);
    if (damage != NULL)
        put_middle(page, DAMAGE, from, to, strlen(damage) < to - from ? damage : "^");
}

static void print_page(const struct page *page, FILE *out)
{
    for (unsigned row = 0; row < ROWS; row++) {
        size_t last = PANEL_SAMPLES;
        while (last > 0 && strcmp(page->cell[row][last - 1], " ") == 0)
            last--;
        if (last == 0)
            continue;
        fprintf(out, "%-*s", LABEL_COLUMNS, labels[row]);
        for (size_t column = 0; column < last; column++)
            fputs(page->cell[row][column], out);
        fputc('\n', out);
    }
}

static void draw_panel(const struct drawing *drawing, size_t first, FILE *out)
{
    static struct page page;
    memset(&page, 0, sizeof page);
    for (unsigned row = 0; row < ROWS; row++)
        for (size_t column = 0; column < PANEL_SAMPLES; column++)
            page.cell[row][column][0] = ' ';
    put_levels(&page, drawing->capture, first, panel_samples(drawing, first));
    if (drawing->layout->started)
        put_bits(&page, drawing->layout, first);
    for (unsigned n = 0; n < SYMBOLS && drawing->reply->has_word; n++)
        put_symbol(&page, drawing, n, first);
    print_page(&page, out);
    fputc('\n', out);
}

void draw_text(const struct drawing *drawing, FILE *out)
{
    char text[CAPTION_BYTES];
    caption(drawing, text);
    fprintf(out, "%s\n\n", text);
    size_t first = first_panel(drawing);
    do
        draw_panel(drawing, first, out);
    while (next_panel(drawing, &first));
    fprintf(out, "%s\n", drawing->reply->line);
    for (const char *left = drawing->explanation; *left != '\0';) {
        size_t length;
        const char *rest = next_line(left, TEXT_COLUMNS, &length);
        fprintf(out, "%.*s\n", (int)length, left);
        left = rest;
    }
}
