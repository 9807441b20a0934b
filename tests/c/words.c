/* isc_number_text and isc_rule_text: a text of its own for each number or rule, and one for all that are none. */
#include "border.h"
#include <string.h>

static void test_numbers(void) {
    uint32_t i, j;
    group("isc_number_text: sixteen texts, and one for no number");
    for (i = 0; i <= 16; i++)
        for (j = 0; j < i; j++)
            if (strcmp(isc_number_text(i), isc_number_text(j)) == 0)
                fail(__FILE__, __LINE__, "the same text for %u and %u", j, i);
    if (strcmp(isc_number_text(16), isc_number_text(UINT32_MAX)) != 0)
        fail(__FILE__, __LINE__, "a text for a number that there is not");
    if (strcmp(isc_number_text(0), "done") != 0)
        fail(__FILE__, __LINE__, "0 is done");
}

static void test_rule_words(void) {
    uint32_t i, j;
    group("isc_rule_text: nine texts, one for none and one for no rule");
    for (i = 0; i <= 10; i++)
        for (j = 0; j < i; j++)
            if (strcmp(isc_rule_text(i), isc_rule_text(j)) == 0)
                fail(__FILE__, __LINE__, "the same text for %u and %u", j, i);
    if (strcmp(isc_rule_text(10), isc_rule_text(UINT32_MAX)) != 0)
        fail(__FILE__, __LINE__, "a text for a rule that there is not");
    if (strcmp(isc_rule_text(0), "no rule is broken") != 0)
        fail(__FILE__, __LINE__, "0 is no rule broken");
}

void test_words(void) {
    test_numbers();
    test_rule_words();
}
