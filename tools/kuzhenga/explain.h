/* Sentences for people about a capture and its reply. */
#ifndef EXPLAIN_H
#define EXPLAIN_H

#include <stddef.h>

#include "capture.h"
#include "layout.h"

enum { EXPLANATION_BYTES = 1024 };

/* Writes the sentences, one after the other, into a text of EXPLANATION_BYTES. */
void explain(const struct capture *capture, const struct layout *layout, const struct reply *reply, char *text);

#endif
