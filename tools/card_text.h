/* Texts to values and back: numbers, dates, names. */
#ifndef CARD_TEXT_H
#define CARD_TEXT_H

#include "isc.h"

/* Room for the longest text field of a volume with each byte escaped, and for a date of any bytes, with the null after
   them. */
enum { TEXT_SHOWN = 4 * ISC_VOLUME_NAME_MOST + 1, TEXT_DATE = 24 };

/* A decimal number from 0 to 2,147,483,647, digits alone. Returns 1 if it is one. */
int text_number(const char *text, int32_t *number);

/* Whether there is at least one character, and all are digits. */
int text_is_digits(const char *text);

/* An id, digits alone; one that no volume can have becomes the largest number, so that the library refuses it. */
uint32_t text_id(const char *text);

/* A date YYYY-MM-DDTHH:MM as the volume has it. Whether there is such a day is the library's to say. Returns 1 if
   the text has this form. */
int text_date(const char *text, uint8_t date[ISC_DATE]);

/* The local clock's date. Returns 1 if the clock could be read. */
int text_now(uint8_t date[ISC_DATE]);

/* A volume's date as YYYY-MM-DDTHH:MM. */
void text_show_date(const uint8_t date[ISC_DATE], char shown[TEXT_DATE]);

/* Up to `most` bytes of a field padded with nulls. A byte outside printable ASCII is shown as \x and two digits, and a
   backslash as two, so that no name can disturb a terminal or a picture, and no two names look alike. */
void text_show(const uint8_t *field, size_t most, char shown[TEXT_SHOWN]);

/* The part of a path after its last slash. */
const char *text_base_name(const char *path);

#endif
