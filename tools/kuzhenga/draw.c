/* kuzhenga draw: a capture as a drawing. */
#define _POSIX_C_SOURCE 200809L
#include "draw.h"

#include <errno.h>
#include <string.h>
#include <sys/stat.h>

#include "commands.h"
#include "explain.h"

static const char help[] =
    "usage: kuzhenga draw [--svg OUT] FILE\n"
    "\n"
    "Draws a capture file: the level of the line, the bits, the symbols of five bits and their nibbles.\n"
    "The fourth nibble is the checksum. What is damaged is marked. FILE may be - for standard input.\n"
    "\n"
    "  --svg OUT   write a picture to the file OUT instead; - for standard output\n"
    "\n"
    "Example: kuzhenga draw captures/at_rest.capture\n"
    "\n"
    "Exit status: 0 the capture was read, 1 it was refused, 2 bad usage or a file that cannot be read or\n"
    "written, 3 the bits that were counted are not the library's: a mistake in this program.\n";

enum { NAME_COLUMNS = 56 }; /* of a caption of 100 columns */

size_t first_panel(const struct drawing *drawing)
{
    size_t start = drawing->layout->start;
    return drawing->layout->started && start > PANEL_LEAD ? start - PANEL_LEAD : 0;
}

bool next_panel(const struct drawing *drawing, size_t *first)
{
    const struct capture *capture = drawing->capture;
    bool is_flat = run_end(capture, 0) == capture->count;
    if (drawing->layout->started || *first + PANEL_SAMPLES >= capture->count || is_flat)
        return false;
    *first += PANEL_SAMPLES;
    return true;
}

size_t panel_samples(const struct drawing *drawing, size_t first)
{
    size_t left = drawing->capture->count - first;
    return left < PANEL_SAMPLES ? left : PANEL_SAMPLES;
}

/* The last part of a name, for a line of text: control bytes are shown as ?, and a long name is cut. */
static void short_name(const char *name, char *text)
{
    const char *slash = strrchr(name, '/');
    const char *part = slash != NULL && slash[1] != '\0' ? slash + 1 : name;
    size_t length = strlen(part);
    bool cut = length > NAME_COLUMNS;
    length = cut ? NAME_COLUMNS : length;
    /* A character may take several bytes. It is not cut in two. */
    while (cut && length > 0 && ((unsigned char)part[length] & 0xc0) == 0x80)
        length--;
    for (size_t i = 0; i < length; i++)
        text[i] = (unsigned char)part[i] < ' ' || part[i] == 0x7f ? '?' : part[i];
    strcpy(text + length, cut ? "..." : "");
}

void caption(const struct drawing *drawing, char *text)
{
    const struct capture *capture = drawing->capture;
    char name[NAME_COLUMNS + 4];
    short_name(capture->name, name);
    if (drawing->reply->refusal == KUZHENGA_NOT_A_CAPTURE)
        snprintf(text, CAPTION_BYTES, "%s: no capture file", name);
    else
        snprintf(text, CAPTION_BYTES, "%s: %zu samples, mask %u, EDT %s", name, capture->count, (unsigned)capture->mask,
                 capture->edt ? "on" : "off");
}

/* Whether two names lead to one file, so that a picture does not overwrite its capture. */
static bool same_file(const char *one, const char *other)
{
    struct stat first, second;
    return stat(one, &first) == 0 && stat(other, &second) == 0 && first.st_dev == second.st_dev &&
           first.st_ino == second.st_ino && S_ISREG(first.st_mode);
}

static int write_svg(const struct drawing *drawing, const char *name)
{
    FILE *out = strcmp(name, "-") == 0 ? stdout : fopen(name, "wb");
    bool failed = out == NULL;
    if (!failed) {
        draw_svg(drawing, out);
        failed = fflush(out) != 0 || ferror(out);
    }
    if (out != NULL && out != stdout)
        failed = fclose(out) != 0 || failed;
    if (failed)
        fprintf(stderr, "kuzhenga: %s: %s\n", name, strerror(errno));
    return failed ? STATUS_USAGE : STATUS_READ;
}

static int draw(const char *file, const char *svg)
{
    static struct capture capture;
    struct reply reply;
    struct layout layout;
    char explanation[EXPLANATION_BYTES];
    if (!load_capture(file, &capture))
        return STATUS_USAGE;
    read_reply(&capture, &reply);
    lay_out(&capture, &layout);
    if (!agrees(&layout, &reply)) {
        fprintf(stderr, "kuzhenga: the bits that were counted are not the library's word\n");
        return STATUS_DIFFERS;
    }
    explain(&capture, &layout, &reply, explanation);
    struct drawing drawing = {&capture, &reply, &layout, explanation};
    int status = STATUS_READ;
    if (svg == NULL)
        draw_text(&drawing, stdout);
    else if (reply.refusal == KUZHENGA_NOT_A_CAPTURE) /* no picture, so that swapped names overwrite no capture */
        fprintf(stderr, "kuzhenga: %s: %s\n", file, reply.line);
    else
        status = write_svg(&drawing, svg);
    return status != STATUS_READ ? status : reply.refusal == KUZHENGA_DONE ? STATUS_READ : STATUS_REFUSED;
}

int run_draw(int count, char **words)
{
    const char *file = NULL;
    const char *svg = NULL;
    for (int i = 0; i < count; i++) {
        if (asks_for_help(words[i])) {
            fputs(help, stdout);
            return STATUS_READ;
        }
        if (strcmp(words[i], "--svg") == 0) {
            if (++i >= count)
                return bad_usage("draw", "--svg", "takes a file");
            svg = words[i];
        } else if (words[i][0] == '-' && words[i][1] != '\0')
            return bad_usage("draw", words[i], "is no option");
        else if (file != NULL)
            return bad_usage("draw", words[i], "is a second file");
        else
            file = words[i];
    }
    if (file == NULL)
        return bad_usage("draw", "a file is missing", "");
    if (svg != NULL && same_file(file, svg))
        return bad_usage("draw", "--svg", "would overwrite the capture");
    return draw(file, svg);
}
