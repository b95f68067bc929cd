#include "expect.h"

#include <stdio.h>

static int passed, failed;

void expect(int holds, const char *what)
{
	passed += holds != 0;
	failed += holds == 0;
	if (!holds)
		printf("fails: %s\n", what);
}

int expect_end(void)
{
	printf("%d passed, %d failed\n", passed, failed);
	return failed != 0;
}
