/* What a test expects: counted, and said where it does not hold. */
#ifndef EXPECT_H
#define EXPECT_H

#define EXPECT(test) expect(test, #test)

void expect(int holds, const char *what);

/* Prints 'N passed, M failed', and answers the exit status. */
int expect_end(void);

#endif
