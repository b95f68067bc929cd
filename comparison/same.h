/* The product's receivers and answers beside the twin's. */
#ifndef SAME_H
#define SAME_H

#include "kangirlo.h"
#include "twin.h"

#include <stdbool.h>

bool same_receiver(const struct kangirlo_receiver *ours, const struct twin *twin);

/* Whether two of the product's receivers are the same, all but the bytes between the fields, which may be anything. */
bool same_fields(const struct kangirlo_receiver *a, const struct kangirlo_receiver *b);

/* An answer of a batch in the twin's form. */
struct twin_answer same_form(const struct kangirlo_batch_answer *answer);

void same_print(const char *whose, const struct twin_answer *answer);

#endif
