/* unlike FILE FILE: says in which entry two bench files differ first, shows both, and ends with 1. Ends with 0 where they are the same. */
#include "entries.h"

#include <stdlib.h>
#include <string.h>

struct side {
	const char *name;
	struct entries entries;
	bool there;             /* whether there is a further entry */
	const uint8_t *message;
	size_t n;
};

static struct side open_side(const char *name)
{
	FILE *from = fopen(name, "rb");
	struct side side = { .name = name };

	if (from == NULL) {
		perror(name);
		exit(2);
	}
	side.entries = entries_load(from);
	fclose(from);
	return side;
}

static void next(struct side *side)
{
	side->there = entries_next(&side->entries, &side->message, &side->n);
}

static bool same(const struct side *one, const struct side *other)
{
	if (!one->there || !other->there)
		return one->there == other->there;
	return one->n == other->n && memcmp(one->message, other->message, one->n) == 0;
}

static void show(const struct side *side)
{
	printf("%s:", side->name);
	for (size_t i = 0; side->there && i < side->n; i++)
		printf(" %02X", side->message[i]);
	puts(side->there ? "" : " no such message");
}

int main(int argc, char **argv)
{
	struct side one, other;
	unsigned long entry = 0;

	if (argc != 3) {
		fputs("usage: unlike FILE FILE\n", stderr);
		return 2;
	}
	one = open_side(argv[1]);
	other = open_side(argv[2]);
	do {
		next(&one);
		next(&other);
		entry++;
	} while (one.there && same(&one, &other));
	if (same(&one, &other))
		return 0;
	printf("message %lu differs\n", entry);
	show(&one);
	show(&other);
	return 1;
}
