/*
 * Answers a request by the library pg_web: reads it from standard input, and writes the answer to
 * standard output, byte by byte. The request is numbers of eight bytes, the lowest first: how many
 * words and how many parts it has, and the length of each part; and then the bytes of the parts.
 * Statuses: 0 if there is an answer, 20 if memory runs out, 21 if there is no such program, 22 if
 * the input ends too early. For `compare.mjs`. This isn't proved.
 */
#include "../pg_web.h"

#include <stdio.h>
#include <stdlib.h>

enum { OUT_OF_MEMORY = 20, NO_PROGRAM = 21, TOO_SHORT = 22 };

static void *got(void *block)
{
    if (!block)
        exit(OUT_OF_MEMORY);
    return block;
}

static size_t read_number(void)
{
    size_t number = 0;
    for (int i = 0; i < 8; i++) {
        int byte = getchar();
        if (byte == EOF)
            exit(TOO_SHORT);
        number |= (size_t)byte << 8 * i;
    }
    return number;
}

int main(void)
{
    size_t count = read_number(), parts = read_number(), bytes_len = 0;
    size_t *lengths = got(malloc((parts + 1) * sizeof *lengths));
    for (size_t i = 0; i < parts; i++)
        bytes_len += lengths[i] = read_number();
    uint8_t *bytes = got(malloc(bytes_len + 1)), *answer = 0;
    if (fread(bytes, 1, bytes_len, stdin) != bytes_len)
        return TOO_SHORT;
    size_t room = 0, size = 1 << 16;
    while (size > room) {
        room = size;
        answer = got(realloc(answer, room));
        size = pg_web(count, lengths, parts, bytes, bytes_len, answer, room);
    }
    if (size == PG_WEB_OUT_OF_MEMORY)
        return OUT_OF_MEMORY;
    if (size == PG_WEB_NO_PROGRAM)
        return NO_PROGRAM;
    return fwrite(answer, 1, size, stdout) == size ? 0 : OUT_OF_MEMORY;
}
