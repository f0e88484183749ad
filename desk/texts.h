/* Models as text: told apart from record files, read to records, and what is wrong with one told in words, with its line. */
#ifndef BUNGALISTOR_TEXTS_H
#define BUNGALISTOR_TEXTS_H

#include <stdbool.h>
#include <stddef.h>
#include <stdint.h>

/* More than the records of any text have. */
#define RECORDS_ROOM 65535u

/* Whether a file is a text: none of its first four bytes is 0. A record begins with its length and its kind, and the higher byte
 * of its kind is 0. */
bool is_text(const uint8_t *bytes, size_t length);

/* Reads the text of the file `name` into `records`, RECORDS_ROOM bytes of them, and says how many bytes that wrote. False if the
 * text is refused: then standard output has `refused N at P`, and standard error says it in words, with the line and a mark under
 * the place. */
bool reads_text(const char *name, const uint8_t *text, size_t length, uint8_t *records, size_t *written);

#endif
