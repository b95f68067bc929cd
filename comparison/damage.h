/* Messages that are damaged, or that no client sends. */
#ifndef DAMAGE_H
#define DAMAGE_H

#include "random.h"
#include "wire.h"

/* Damages a message as a whole. As a rule its length field is then made to fit. */
void damage(struct random *random, struct wire *wire);

/* Any event with any few bytes after it. */
void damage_stray(struct random *random, struct wire *wire);

/* Writes the part of an entry to standard output: one byte of the length, or the length and fewer bytes than it says. */
void damage_cut(struct random *random);

#endif
