/* From a bench file to chosen boats: one connection's receiver, and a label over the screen's list of boats. Prints each message that is
 * refused, and each choice.
 *
 *     boats FILE */
#include "bench_file.h"
#include "kangirlo.h"

#include <stdio.h>
#include <stdlib.h>

enum { BOATS = 3 };

/* The item is the number of the landing note. */
static const struct kangirlo_button buttons[BOATS] = {
	{501, 20, 20, 220, 80, 1},
	{502, 20, 80, 220, 140, 1},
	{503, 20, 140, 220, 200, 1},
};

static const char *const names[BOATS] = {"Ternen", "Havblik", "Solvej"};

static struct kangirlo_receiver receiver;
static struct kangirlo_label label;
static uint8_t records[KANGIRLO_OUTPUT_MOST];
static struct kangirlo_choice choices[KANGIRLO_CHOICES_MOST];

static const char *name_of(uint32_t item)
{
	size_t place = 0;

	while (place < BOATS - 1 && buttons[place].item != item)
		place++;
	return names[place];
}

/* A message that is refused has no records, and changes the label as little as the receiver. */
static void take_message(const uint8_t *message, size_t length)
{
	static unsigned number;
	const struct kangirlo_answer answer = kangirlo_receive_direct(&receiver, message, length, records, sizeof records);
	const struct kangirlo_picked picked = kangirlo_choose(&label, buttons, BOATS, records, answer.records * KANGIRLO_RECORD_BYTES,
	                                                      choices, KANGIRLO_CHOICES_MOST);

	number++;
	if (answer.refusal != KANGIRLO_TAKEN)
		printf("message %u: refused by %d\n", number, answer.refusal);
	if (picked.refusal != KANGIRLO_TAKEN) {
		fprintf(stderr, "message %u: the label has come apart from the receiver: %d\n", number, picked.refusal);
		exit(1);
	}
	for (size_t i = 0; i < picked.count; i++)
		printf("message %u: finger %u chooses %s, landing note %u\n", number, choices[i].id, name_of(choices[i].item),
		       choices[i].item);
}

int main(int count, char **words)
{
	if (count != 2) {
		fprintf(stderr, "usage: boats FILE\n");
		return 2;
	}
	bench_file_each(words[1], take_message);
	return 0;
}
