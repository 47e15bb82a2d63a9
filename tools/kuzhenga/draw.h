/* The two forms of a drawing. */
#ifndef DRAW_H
#define DRAW_H

#include <stdio.h>

#include "capture.h"
#include "layout.h"

struct drawing {
    const struct capture *capture;
    const struct reply *reply;
    const struct layout *layout;
    const char *explanation;
};

/* How many samples a panel shows, and how many of them stand before the start edge at most. */
enum { PANEL_SAMPLES = 90, PANEL_LEAD = 12 };

/* Panels: one from shortly before the start edge, or one of a line that stays at one level, or as many as it takes to
 * show every sample. */
size_t first_panel(const struct drawing *drawing);
bool next_panel(const struct drawing *drawing, size_t *first);

/* The number of samples that the panel from `first` on shows. */
size_t panel_samples(const struct drawing *drawing, size_t first);

/* What stands above the drawing. */
enum { CAPTION_BYTES = 256 };
void caption(const struct drawing *drawing, char *text);

void draw_text(const struct drawing *drawing, FILE *out);
void draw_svg(const struct drawing *drawing, FILE *out);

#endif
