/* posgame, posgame-settle and posgame-draw as one call on bytes (docs/FORMATS.md, "Requests"). */
#ifndef PG_WEB_H
#define PG_WEB_H

#include <stddef.h>
#include <stdint.h>

#ifdef __cplusplus
extern "C" {
#endif

#define PG_WEB_OUT_OF_MEMORY 0 /* memory ran out; the room is as it was */
#define PG_WEB_NO_PROGRAM 1    /* the first word names no program; the room is as it was */

/*
 * Answers a request: `bytes` is cut into parts of these lengths. The first `count` parts are
 * words, of which the first names the program; the next part is what the console reads, and the
 * others are files, names and bytes in turns. Returns the length of the answer, at least 17, or
 * one of the two numbers above. The answer stands at the beginning of the room if it fits
 * there; if not, the room is as it was.
 */
size_t pg_web(size_t count, const size_t *lengths, size_t lengths_len, const uint8_t *bytes,
              size_t bytes_len, uint8_t *room, size_t room_len);

#ifdef __cplusplus
}
#endif

#endif
