/* The corpus of the program `choices`, by the calls from C: the entries of its standard input, and for each the line that it has to print.
 * Each choice is made twice, of a label and of one in parts. Ends with 'N passed, M failed'.
 *
 *     corpus STDIN STDOUT */
#include "bench_file.h"
#include "expect.h"
#include "kangirlo.h"
#include "label_apart.h"

#include <stdio.h>
#include <stdlib.h>
#include <string.h>

enum { LIST = 1, SHOW = 2, CHOOSE = 3 };
enum { BUTTONS_MOST = 64, BUTTON_BYTES = 21, PLACES_MOST = 65535, LINE_MOST = 1 << 16 };

static struct kangirlo_button buttons[BUTTONS_MOST];
static size_t how_many;
static struct kangirlo_label label;
static struct label_apart apart;
static uint32_t numbers[KANGIRLO_CHOICE_NUMBERS(PLACES_MOST)];
static struct kangirlo_choice choices[PLACES_MOST];
static FILE *wanted;
static unsigned entry;

static uint32_t number_at(const uint8_t *bytes, size_t width)
{
	uint32_t value = 0;

	for (size_t i = 0; i < width; i++)
		value = value << 8 | bytes[i];
	return value;
}

/* All contacts out. */
static void begin(void)
{
	memset(&label, 0, sizeof label);
	label_apart_set(&apart, &label);
}

static void set_list(const uint8_t *bytes, size_t length)
{
	how_many = length / BUTTON_BYTES;
	for (size_t i = 0; i < how_many; i++, bytes += BUTTON_BYTES)
		buttons[i] = (struct kangirlo_button){.item = number_at(bytes, 4),
		                                      .left = (int32_t)number_at(bytes + 4, 4),
		                                      .top = (int32_t)number_at(bytes + 8, 4),
		                                      .right = (int32_t)number_at(bytes + 12, 4),
		                                      .bottom = (int32_t)number_at(bytes + 16, 4),
		                                      .shown = bytes[20]};
	begin();
}

/* What is printed behind the entry's number: refusal, count, and the choices. */
static void choose(char *line, size_t places, const uint8_t *records, size_t bytes)
{
	const struct kangirlo_picked picked = kangirlo_choose(&label, buttons, how_many, records, bytes, choices, places);
	const struct kangirlo_picked in_parts = kangirlo_choose_parts(apart.states, apart.pressed, buttons, how_many, records, bytes, numbers,
	                                                              KANGIRLO_CHOICE_NUMBERS(places));
	int at = sprintf(line, "%d %zu", picked.refusal, picked.count);

	for (size_t i = 0; i < picked.count; i++)
		at += sprintf(line + at, " %u:%u", choices[i].id, choices[i].item);
	expect(in_parts.refusal == picked.refusal && in_parts.count == picked.count && label_apart_is(&apart, &label)
	               && memcmp(choices, numbers, picked.count * sizeof *choices) == 0,
	       "a label in parts as a label");
}

static void carry_out(char *line, const uint8_t *bytes, size_t length)
{
	const int command = length > 0 ? bytes[0] : 0;

	if (command == LIST && (length - 1) % BUTTON_BYTES == 0 && (length - 1) / BUTTON_BYTES <= BUTTONS_MOST) {
		set_list(bytes + 1, length - 1);
		strcpy(line, "set");
	} else if (command == SHOW && length == 4) {
		strcpy(line, kangirlo_set_shown(buttons, how_many, number_at(bytes + 1, 2), bytes[3]) ? "set" : "none");
	} else if (command == CHOOSE && length >= 3) {
		choose(line, number_at(bytes + 1, 2), bytes + 3, length - 3);
	} else {
		strcpy(line, "bad");
	}
}

/* The next line that is wanted: false at the end. */
static bool next_wanted(char *line)
{
	return fgets(line, LINE_MOST, wanted) != NULL;
}

static void hold(const uint8_t *bytes, size_t length)
{
	static char answer[LINE_MOST], line[LINE_MOST + 16], want[LINE_MOST];

	carry_out(answer, bytes, length);
	sprintf(line, "%u %s\n", ++entry, answer);
	expect(next_wanted(want) && strcmp(line, want) == 0, line);
}

/* An incomplete last entry has a line too, in which there is nothing of the calls. */
static void hold_end(void)
{
	static char cut[32], want[LINE_MOST];

	sprintf(cut, "%u cut\n", entry + 1);
	expect(!next_wanted(want) || (strcmp(cut, want) == 0 && !next_wanted(want)), "every line has its entry");
}

int main(int count, char **words)
{
	if (count != 3) {
		fprintf(stderr, "usage: corpus STDIN STDOUT\n");
		return 2;
	}
	wanted = fopen(words[2], "r");
	if (!wanted) {
		perror(words[2]);
		return 1;
	}
	begin();
	bench_file_each(words[1], hold);
	hold_end();
	fclose(wanted);
	return expect_end();
}
