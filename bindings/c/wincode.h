/* The proved inspector of bincode 1's default layout, for C: whether bytes begin with a value of a type.
 *
 * A type is a text as Rust writes it, such as Vec<(u64, String)>; docs/USING.md has the forms. It is UTF-8, without a zero
 * at its end.
 *
 * What a caller owes, which nothing checks: each pointer is to as many bytes as its length says, and not null, also where
 * the length is 0; nothing else writes these bytes while a call runs; malloc, realloc and free come from one allocator,
 * which aligns a block to each power of two up to 16 that divides its size, as glibc's does; no call is made from a signal
 * handler. Calls share nothing, so threads may call at once. */
#ifndef WINCODE_H
#define WINCODE_H

#include <stddef.h>
#include <stdint.h>

#ifdef __cplusplus
extern "C" {
#endif

/* What a call found of bytes. */
struct wincode_report {
  size_t length; /* how many bytes the value has; of a refusal, how many stand before the part that was refused */
  size_t parts;  /* how many parts these bytes are */
  size_t behind; /* how many bytes are behind them */
  size_t place;  /* how many bytes were read; of a fault of the type's text, the byte of the text where it is */
  size_t first;  /* the numbers that the refusal's text has, or 0 */
  size_t second;
  size_t depth; /* of a refusal, how many items deep its part is: of how many lists, sets, maps and arrays it is in an item */
};

/* What a call put into the room for lines. */
struct wincode_page {
  size_t length; /* how many bytes it put there */
  size_t lines;  /* how many lines these are */
  size_t behind; /* how many bytes of lines are behind them */
};

/* Numbers that a call answers: 0 is a value or a text, what is above 0 a refusal, what is below 0 a fault of the call. */
enum {
  WINCODE_OK = 0,
  WINCODE_TOO_FEW_BYTES = 1,         /* first: how many were to be read */
  WINCODE_READER_OUT_OF_MEMORY = 4,
  WINCODE_NOT_UTF8 = 5,              /* first: how many bytes of the text are; second: how many behind these are no character */
  WINCODE_PAST_LIMIT = 7,            /* first: how many bytes a list needs; second: how many it may */
  WINCODE_NO_SUCH_TAG = 8,           /* first: the tag */
  WINCODE_NO_BOOL = 9,               /* first: the byte */
  WINCODE_PAST_USIZE = 10,           /* a size that can't be counted */
  WINCODE_NO_CHARACTER = 11,         /* first: the byte */
  WINCODE_OUT_OF_MEMORY = 14,
  WINCODE_BYTES_BEHIND = 15,         /* first: how many */
  WINCODE_PAST_U16 = 16,             /* a short length past 65535 */
  WINCODE_TYPE_NOT_UTF8 = -1,
  WINCODE_TYPE_FAULT = -2,
  WINCODE_TYPE_TOO_DEEP = -3,
  WINCODE_TYPE_OUT_OF_MEMORY = -4,
  WINCODE_TEXT_OUT_OF_MEMORY = -5,
  WINCODE_TOO_LITTLE_ROOM = -6
};

/* Reads the bytes by the type, reports what was found, and answers WINCODE_OK where they begin with a value of it. */
int32_t wincode_check(const uint8_t *type, size_t type_length, const uint8_t *bytes, size_t length,
                      struct wincode_report *report);

/* As wincode_check, where bytes behind the value are a refusal too. */
int32_t wincode_check_exact(const uint8_t *type, size_t type_length, const uint8_t *bytes, size_t length,
                            struct wincode_report *report);

/* As wincode_check, and puts the lines that explain the value over the front of the room, from the line with that number
 * on, as many whole ones as fit: so one goes through all lines with a room of any size that holds the longest. A line has
 * the offset of a part, its bytes, its place and its value; of a refusal the last one has the offset, the place and why. */
int32_t wincode_explain(const uint8_t *type, size_t type_length, const uint8_t *bytes, size_t length, size_t from,
                        uint8_t *room, size_t room_length, struct wincode_report *report, struct wincode_page *page);

/* Puts the text of the refusal with that number over the front of the room, without a zero at its end, and tells its
 * length; first and second are those of the report. */
int32_t wincode_message(int32_t number, size_t first, size_t second, uint8_t *room, size_t room_length, size_t *length);

/* Puts the text of a type over the front of the room, where what a Rust source declares has its name, and tells its length:
 * this text is a type for the calls above. Of a fault it tells the byte of the type. */
int32_t wincode_layout(const uint8_t *source, size_t source_length, const uint8_t *type, size_t type_length, uint8_t *room,
                       size_t room_length, size_t *length);

#ifdef __cplusplus
}
#endif

#endif
