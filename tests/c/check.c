/* Counts groups of checks, and prints one line for each: `ok NAME`, or `FAILED NAME:` with the first check of the
   group that failed. A fault inside a call, and a call that does not return, end the program with such a line too. */
#include "border.h"
#include <signal.h>
#include <stdarg.h>
#include <stdio.h>
#include <string.h>
#include <unistd.h>

enum { PATIENCE = 120 }; /* seconds for a group */

static const char *current;
static char first[400];
static unsigned wrong, passed, failed;
static int merging;

static void end_group(void) {
    if (current == NULL)
        return;
    if (wrong == 0)
        printf("ok %s\n", current);
    else if (wrong == 1)
        printf("FAILED %s: %s\n", current, first);
    else
        printf("FAILED %s: %s, and %u more\n", current, first, wrong - 1);
    fflush(stdout);
    passed += wrong == 0;
    failed += wrong > 0;
}

static void say(const char *words) {
    if (write(STDOUT_FILENO, words, strlen(words)) < 0)
        _exit(1);
}

static void on_signal(int number) {
    say("FAILED ");
    say(current);
    if (number == SIGALRM)
        say(": a call does not return\n");
    else
        say(": a fault: a byte outside what is lent, or one that is lent to be read only was written\n");
    _exit(1);
}

void merge(int on) { merging = on; }

void group(const char *name) {
    if (merging)
        return;
    end_group();
    current = name;
    wrong = 0;
    signal(SIGSEGV, on_signal);
    signal(SIGBUS, on_signal);
    signal(SIGALRM, on_signal);
    alarm(PATIENCE);
}

void fail(const char *file, int line, const char *format, ...) {
    va_list values;
    int used;
    if (wrong++ > 0)
        return;
    used = snprintf(first, sizeof first, "%s:%d: ", file, line);
    va_start(values, format);
    vsnprintf(first + used, sizeof first - (size_t)used, format, values);
    va_end(values);
}

int summary(void) {
    end_group();
    current = NULL;
    printf("%u passed, %u failed\n", passed, failed);
    return failed > 0;
}
