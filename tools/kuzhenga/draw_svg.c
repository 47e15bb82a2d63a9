/* A drawing as a picture (SVG 1.1). */
#include "draw.h"

#include <string.h>

#include "symbols.h"

/* In pixels. */
enum {
    LEFT = 84,
    SAMPLE_WIDTH = 9,
    WIDTH = LEFT + PANEL_SAMPLES * SAMPLE_WIDTH + 16,
    TOP = 44,
    SCALE_Y = 10,
    HIGH_Y = 26,
    LOW_Y = 62,
    BITS_Y = 86,
    SYMBOL_Y = 112,
    NIBBLE_Y = 140,
    DAMAGE_Y = 160,
    LEVEL_HEIGHT = 80,
    REPLY_HEIGHT = 176,
    LINE_HEIGHT = 18,
    FOOT = 14,
    FOOT_COLUMNS = 100
};

static const char ink[] = "#1a1a1a";
static const char faint[] = "#6b6b6b";
static const char wrong[] = "#b00020";

static int x_of(size_t sample, size_t first)
{
    return LEFT + (int)(sample - first) * SAMPLE_WIDTH;
}

static void escaped(FILE *out, const char *text, size_t length)
{
    for (size_t i = 0; i < length; i++) {
        unsigned char c = (unsigned char)text[i];
        if (c == '&')
            fputs("&amp;", out);
        else if (c == '<')
            fputs("&lt;", out);
        else
            fputc(c < ' ' || c > '~' ? '?' : c, out);
    }
}

static void put_text(FILE *out, int x, int y, const char *anchor, int size, const char *colour, const char *text,
                     size_t length)
{
    fprintf(out, "<text x=\"%d\" y=\"%d\" text-anchor=\"%s\" font-size=\"%d\" fill=\"%s\">", x, y, anchor, size,
            colour);
    escaped(out, text, length);
    fputs("</text>\n", out);
}

static void put_middle(FILE *out, int x, int y, int size, const char *colour, const char *text)
{
    put_text(out, x, y, "middle", size, colour, text, strlen(text));
}

static void put_label(FILE *out, int y, const char *text)
{
    put_text(out, LEFT - 12, y, "end", 13, faint, text, strlen(text));
}

static void put_levels(FILE *out, const struct drawing *drawing, size_t first, int top)
{
    const struct capture *capture = drawing->capture;
    size_t samples = panel_samples(drawing, first);
    char number[24];
    put_label(out, top + SCALE_Y, "sample");
    for (size_t i = first; i < first + samples; i++) {
        if (i % 10 != 0)
            continue;
        snprintf(number, sizeof number, "%zu", i);
        put_text(out, x_of(i, first), top + SCALE_Y, "start", 11, faint, number, strlen(number));
    }
    put_label(out, top + HIGH_Y + 4, "high");
    put_label(out, top + LOW_Y + 4, "low");
    fprintf(out, "<polyline fill=\"none\" stroke=\"%s\" stroke-width=\"2\" points=\"", ink);
    for (size_t i = first; i < first + samples; i++) {
        int y = top + (is_high(capture, i) ? HIGH_Y : LOW_Y);
        fprintf(out, "%d,%d %d,%d ", x_of(i, first), y, x_of(i + 1, first), y);
    }
    fputs("\"/>\n", out);
}

/* The first bit of the last run. */
static unsigned last_run(const struct layout *layout)
{
    unsigned i = layout->count;
    while (i > 0 && !layout->bits[--i].set)
        ;
    return i;
}

static void put_bits(FILE *out, const struct layout *layout, size_t first, int top)
{
    unsigned extra = layout->overlong ? last_run(layout) : layout->count;
    put_label(out, top + BITS_Y, "bits");
    for (unsigned i = 0; i < layout->count; i++) {
        int from = x_of(layout->bits[i].from, first);
        int to = x_of(layout->bits[i].to, first);
        fprintf(out, "<line x1=\"%d\" y1=\"%d\" x2=\"%d\" y2=\"%d\" stroke=\"#d0d0d0\"/>\n", from, top + HIGH_Y - 6,
                from, top + BITS_Y + 4);
        put_middle(out, (from + to) / 2, top + BITS_Y, 14, i >= extra ? wrong : ink, layout->bits[i].set ? "1" : "0");
        if (i == extra)
            put_middle(out, (from + to) / 2, top + BITS_Y + LINE_HEIGHT, 12, wrong, "too many bits");
    }
}

/* Symbol n with its nibble, and what is wrong with it. */
static void put_symbol(FILE *out, const struct drawing *drawing, unsigned n, size_t first, int top)
{
    const struct bit *bits = &drawing->layout->bits[1 + 5 * n];
    int from = x_of(bits[0].from, first) + 2;
    int to = x_of(bits[4].to, first) - 2;
    unsigned nibble = nibble_at(drawing->reply->word, n);
    char text[DAMAGE_BYTES];
    const char *damage = damage_of(drawing->reply, n, text);
    const char *colour = damage != NULL ? wrong : ink;
    if (damage != NULL)
        put_middle(out, (from + to) / 2, top + DAMAGE_Y, 12, wrong, damage);
    fprintf(out, "<path fill=\"none\" stroke=\"%s\" d=\"M%d %d v6 H%d v-6\"/>\n", colour, from, top + BITS_Y + 7, to);
    snprintf(text, sizeof text, "%02x", symbol_at(drawing->reply->word, n));
    put_middle(out, (from + to) / 2, top + SYMBOL_Y, 14, colour, text);
    snprintf(text, sizeof text, nibble == NO_NIBBLE ? "?" : n == CHECKSUM_SYMBOL ? "%x (checksum)" : "%x", nibble);
    put_middle(out, (from + to) / 2, top + NIBBLE_Y, 16, colour, text);
}

static int draw_panel(FILE *out, const struct drawing *drawing, size_t first, int top)
{
    if (drawing->layout->started)
        put_bits(out, drawing->layout, first, top);
    put_levels(out, drawing, first, top);
    if (drawing->reply->has_word) {
        put_label(out, top + SYMBOL_Y, "symbols");
        put_label(out, top + NIBBLE_Y, "nibbles");
        for (unsigned n = 0; n < SYMBOLS; n++)
            put_symbol(out, drawing, n, first, top);
    }
    return top + (drawing->layout->started ? REPLY_HEIGHT : LEVEL_HEIGHT);
}

static int height_of(const struct drawing *drawing)
{
    int height = TOP + LINE_HEIGHT + FOOT;
    size_t first = first_panel(drawing);
    do
        height += drawing->layout->started ? REPLY_HEIGHT : LEVEL_HEIGHT;
    while (next_panel(drawing, &first));
    size_t length;
    for (const char *left = drawing->explanation; *left != '\0'; height += LINE_HEIGHT)
        left = next_line(left, FOOT_COLUMNS, &length);
    return height;
}

static void put_foot(FILE *out, const struct drawing *drawing, int y)
{
    const char *line = drawing->reply->line;
    put_text(out, LEFT, y, "start", 15, drawing->reply->refusal == KUZHENGA_DONE ? ink : wrong, line, strlen(line));
    for (const char *left = drawing->explanation; *left != '\0';) {
        size_t length;
        const char *rest = next_line(left, FOOT_COLUMNS, &length);
        y += LINE_HEIGHT;
        put_text(out, LEFT, y, "start", 13, faint, left, length);
        left = rest;
    }
}

void draw_svg(const struct drawing *drawing, FILE *out)
{
    char text[CAPTION_BYTES];
    int height = height_of(drawing);
    caption(drawing, text);
    fprintf(out, "<svg xmlns=\"http://www.w3.org/2000/svg\" width=\"%d\" height=\"%d\" viewBox=\"0 0 %d %d\"", WIDTH,
            height, WIDTH, height);
    fputs(" font-family=\"monospace\">\n<title>", out);
    escaped(out, text, strlen(text));
    fputs(": ", out);
    escaped(out, drawing->reply->line, strlen(drawing->reply->line));
    fputs("</title>\n<rect width=\"100%\" height=\"100%\" fill=\"#ffffff\"/>\n", out);
    put_text(out, LEFT, 24, "start", 13, faint, text, strlen(text));
    size_t first = first_panel(drawing);
    int top = TOP;
    do
        top = draw_panel(out, drawing, first, top);
    while (next_panel(drawing, &first));
    put_foot(out, drawing, top + LINE_HEIGHT);
    fputs("</svg>\n", out);
}
