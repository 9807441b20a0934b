/* What the tool says on standard error, and the exit status that goes with it. */
#ifndef CARD_SAY_H
#define CARD_SAY_H

#include <stdint.h>

/* Exit statuses. */
enum { CARD_DONE = 0, CARD_REFUSED = 1, CARD_MISUSED = 2 };

/* The command that the messages name from now on. */
void say_command(const char *name);

/* A refusal of the library, in words and with its number. Returns CARD_REFUSED. */
int say_refusal(uint32_t number);

/* Anything else that went wrong, as printf has it. Returns CARD_REFUSED. */
int say_failure(const char *format, ...);

/* What the system said of a file in errno. Returns CARD_REFUSED. */
int say_system(const char *path);

/* Wrong usage, as printf has it, with a hint to the help. Returns CARD_MISUSED. */
int say_misuse(const char *format, ...);

/* A line that helps after a refusal, or that is only to be known. */
void say_note(const char *format, ...);

#endif
