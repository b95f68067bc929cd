/* A bench file: entries of a 16-bit length, most significant byte first, and a message. */
#ifndef BENCH_FILE_H
#define BENCH_FILE_H

#include <stddef.h>
#include <stdint.h>

/* Does something with the message of every whole entry of a file. Ends the program where there is no such file. */
void bench_file_each(const char *name, void (*with)(const uint8_t *message, size_t length));

#endif
