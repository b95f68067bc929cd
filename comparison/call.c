/* call PASSES < FILE: measures the receiver's call (measure.h), one message after the other. Compiled with TWIN it calls the second
 * receiver, and otherwise the product: with DIRECT by the call that is lent the receiver's own fields. */
#include "measure.h"

#ifdef TWIN
typedef struct twin any_receiver;
typedef struct twin_answer any_answer;
#define RECEIVE twin_receive
#define TIME(answer) ((answer).time)

static void begin(any_receiver *receiver)
{
	twin_fresh(receiver);
}
#else
#include "kangirlo.h"
typedef struct kangirlo_receiver any_receiver;
typedef struct kangirlo_answer any_answer;
#ifdef DIRECT
#define RECEIVE kangirlo_receive_direct
#else
#define RECEIVE kangirlo_receive
#endif
#define TIME(answer) ((answer).time.value)

static void begin(any_receiver *receiver)
{
	*receiver = kangirlo_fresh();
}
#endif

static uint8_t output[TWIN_OUTPUT_MOST];

static uint64_t sum_up(struct entries entries)
{
	uint64_t sum = MEASURE_NOTHING;
	const uint8_t *message;
	any_receiver receiver;
	size_t n;

	begin(&receiver);
	while (entries_next(&entries, &message, &n)) {
		const any_answer a = RECEIVE(&receiver, message, n, output, sizeof output);
		const struct twin_answer answer = { a.refusal, a.injected, a.ignored, a.cancelled, TIME(a), a.records };

		sum = measure_add(sum, &answer, output);
	}
	return sum;
}

static void pass(struct entries entries)
{
	const uint8_t *message;
	any_receiver receiver;
	size_t n;

	begin(&receiver);
	while (entries_next(&entries, &message, &n))
		RECEIVE(&receiver, message, n, output, sizeof output);
}

int main(int argc, char **argv)
{
	return measure(argc, argv, pass, sum_up);
}
