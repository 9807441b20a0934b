/* Texts to values and back: numbers, dates, names. */
#include "card_text.h"

#include <stdio.h>
#include <string.h>
#include <time.h>

int text_is_digits(const char *text) {
    return text[0] != '\0' && text[strspn(text, "0123456789")] == '\0';
}

/* The number of `text`, or `most` if it is larger. */
static uint32_t digits_up_to(const char *text, uint32_t most) {
    uint64_t number = 0;
    for (; *text != '\0' && number <= most; text++)
        number = number * 10 + (uint64_t)(*text - '0');
    return number > most ? most : (uint32_t)number;
}

int text_number(const char *text, int32_t *number) {
    const uint32_t above = 2147483648u;
    uint32_t found;
    if (!text_is_digits(text))
        return 0;
    found = digits_up_to(text, above);
    if (found == above)
        return 0;
    *number = (int32_t)found;
    return 1;
}

uint32_t text_id(const char *text) {
    return digits_up_to(text, UINT32_MAX);
}

/* The number of `count` digits. */
static unsigned digits(const char *text, int count) {
    unsigned number = 0;
    for (; count > 0; count--)
        number = number * 10 + (unsigned)(*text++ - '0');
    return number;
}

static void put_date(uint8_t date[ISC_DATE], unsigned year, unsigned month, unsigned day, unsigned hour,
                     unsigned minute) {
    date[0] = (uint8_t)(year >> 8);
    date[1] = (uint8_t)(year & 255);
    date[2] = (uint8_t)month;
    date[3] = (uint8_t)day;
    date[4] = (uint8_t)hour;
    date[5] = (uint8_t)minute;
}

int text_date(const char *text, uint8_t date[ISC_DATE]) {
    const char form[] = "dddd-dd-ddTdd:dd";
    size_t i;
    if (strlen(text) != sizeof form - 1)
        return 0;
    for (i = 0; i < sizeof form - 1; i++) {
        int fits = form[i] == 'd' ? text[i] >= '0' && text[i] <= '9' : text[i] == form[i];
        if (!fits)
            return 0;
    }
    put_date(date, digits(text, 4), digits(text + 5, 2), digits(text + 8, 2), digits(text + 11, 2),
             digits(text + 14, 2));
    return 1;
}

int text_now(uint8_t date[ISC_DATE]) {
    time_t clock = time(NULL);
    struct tm local;
    if (clock == (time_t)-1 || localtime_r(&clock, &local) == NULL)
        return 0;
    put_date(date, (unsigned)local.tm_year + 1900, (unsigned)local.tm_mon + 1, (unsigned)local.tm_mday,
             (unsigned)local.tm_hour, (unsigned)local.tm_min);
    return 1;
}

void text_show_date(const uint8_t date[ISC_DATE], char shown[TEXT_DATE]) {
    unsigned year = (unsigned)date[0] << 8 | date[1];
    snprintf(shown, TEXT_DATE, "%04u-%02u-%02uT%02u:%02u", year, (unsigned)date[2], (unsigned)date[3],
             (unsigned)date[4], (unsigned)date[5]);
}

void text_show(const uint8_t *field, size_t most, char shown[TEXT_SHOWN]) {
    size_t i;
    char *at = shown;
    for (i = 0; i < most && field[i] != 0; i++) {
        if (field[i] == '\\')
            at += sprintf(at, "\\\\");
        else if (field[i] >= ' ' && field[i] <= '~')
            *at++ = (char)field[i];
        else
            at += sprintf(at, "\\x%02x", (unsigned)field[i]);
    }
    *at = '\0';
}

const char *text_base_name(const char *path) {
    const char *slash = strrchr(path, '/');
    return slash == NULL ? path : slash + 1;
}
