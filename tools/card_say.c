/* The messages of the tool: every line on standard error begins with `card:` and the command's name. */
#include "card_say.h"
#include "isc.h"

#include <errno.h>
#include <stdarg.h>
#include <stdio.h>
#include <string.h>

static const char *command; /* null until one is known */

void say_command(const char *name) {
    command = name;
}

static void say_start(void) {
    /* What was printed so far comes before the message where both go to one terminal. */
    fflush(stdout);
    fputs("card: ", stderr);
    if (command != NULL)
        fprintf(stderr, "%s: ", command);
}

int say_refusal(uint32_t number) {
    say_start();
    fprintf(stderr, "%s (%u)\n", isc_number_text(number), (unsigned)number);
    return CARD_REFUSED;
}

/* The start of a line, and the text: what ends the line is the caller's. */
static void say_text(const char *format, va_list values) {
    say_start();
    vfprintf(stderr, format, values);
}

int say_failure(const char *format, ...) {
    va_list values;
    va_start(values, format);
    say_text(format, values);
    va_end(values);
    fputc('\n', stderr);
    return CARD_REFUSED;
}

int say_system(const char *path) {
    const char *text = strerror(errno);
    return say_failure("%s: %s", path, text);
}

int say_misuse(const char *format, ...) {
    va_list values;
    va_start(values, format);
    say_text(format, values);
    va_end(values);
    if (command != NULL)
        fprintf(stderr, "; see `card %s --help`\n", command);
    else
        fputs("; see `card --help`\n", stderr);
    return CARD_MISUSED;
}

void say_note(const char *format, ...) {
    va_list values;
    va_start(values, format);
    say_text(format, values);
    va_end(values);
    fputc('\n', stderr);
}
