/*
 * An example: runs a program on files that it reads into memory, and prints the answer. It is
 * called as the programs are, with the files that the run is to have before `--`:
 *
 *     example noughts.game -- posgame solve noughts.game noughts.cert
 *
 * It prints what was printed, then for each file of the answer a line with its name and its
 * length, and its bytes; and exits with the status. Statuses of its own: 20 if memory runs out,
 * 21 if there is no such program, 22 if a file can't be read.
 */
#include "pg_web.h"

#include <stdio.h>
#include <stdlib.h>
#include <string.h>

enum { OUT_OF_MEMORY = 20, NO_PROGRAM = 21, UNREADABLE = 22, MOST_PARTS = 64 };

/* The parts of a request, one after another. */
struct request {
    size_t count;
    size_t lengths[MOST_PARTS];
    size_t parts;
    uint8_t *bytes;
    size_t size;
};

static void *got(void *block)
{
    if (!block)
        exit(OUT_OF_MEMORY);
    return block;
}

static void add(struct request *request, const void *bytes, size_t length)
{
    if (request->parts == MOST_PARTS)
        exit(OUT_OF_MEMORY);
    request->bytes = got(realloc(request->bytes, request->size + length + 1));
    if (length)
        memcpy(request->bytes + request->size, bytes, length);
    request->size += length;
    request->lengths[request->parts++] = length;
}

static void add_file(struct request *request, const char *name)
{
    FILE *file = fopen(name, "rb");
    uint8_t *bytes = 0;
    size_t length = 0, more;
    if (!file)
        exit(UNREADABLE);
    do {
        bytes = got(realloc(bytes, length + 65536));
        more = fread(bytes + length, 1, 65536, file);
        length += more;
    } while (more);
    fclose(file);
    add(request, name, strlen(name));
    add(request, bytes, length);
    free(bytes);
}

/* The part that begins there: its length in eight bytes, the lowest first, and its bytes. */
static const uint8_t *part(const uint8_t **at, size_t *length)
{
    const uint8_t *head = *at;
    *length = 0;
    for (int i = 7; i >= 0; i--)
        *length = (*length << 8) | head[i];
    *at = head + 8 + *length;
    return head + 8;
}

static void print_log(const uint8_t *log, size_t size)
{
    const uint8_t *at = log;
    while (at < log + size) {
        size_t length;
        const uint8_t *entry = part(&at, &length);
        if (entry[0] == '<')
            fwrite(entry + 1, 1, length - 1, stdout);
    }
}

static int print_answer(const uint8_t *answer, size_t size)
{
    const uint8_t *at = answer;
    size_t length;
    int status = part(&at, &length)[0];
    const uint8_t *log = part(&at, &length);
    print_log(log, length);
    while (at < answer + size) {
        const uint8_t *name = part(&at, &length);
        fwrite(name, 1, length, stdout);
        const uint8_t *bytes = part(&at, &length);
        printf(" %zu\n", length);
        fwrite(bytes, 1, length, stdout);
    }
    return status;
}

/* Asks for the answer, once more if the room is too small for it. */
static int ask(const struct request *request)
{
    size_t room = 4096, size = room;
    uint8_t *answer = 0;
    do {
        room = size;
        answer = got(realloc(answer, room));
        size = pg_web(request->count, request->lengths, request->parts, request->bytes,
                      request->size, answer, room);
    } while (size > room);
    if (size == PG_WEB_OUT_OF_MEMORY)
        return OUT_OF_MEMORY;
    if (size == PG_WEB_NO_PROGRAM)
        return NO_PROGRAM;
    int status = print_answer(answer, size);
    free(answer);
    return status;
}

int main(int argc, char **argv)
{
    struct request request = {0, {0}, 0, 0, 0};
    int words = 1;
    while (words < argc && strcmp(argv[words], "--"))
        words++;
    for (int i = words + 1; i < argc; i++)
        add(&request, argv[i], strlen(argv[i]));
    request.count = request.parts;
    add(&request, "", 0);
    for (int i = 1; i < words && i < argc; i++)
        add_file(&request, argv[i]);
    int status = ask(&request);
    free(request.bytes);
    return status;
}
