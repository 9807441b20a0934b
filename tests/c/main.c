/* The tests of the C border: calls each function of isc.h, done and refused, and compares what it answers and every
   byte that was lent with what the paper says. Prints a line for each group and the sums; exit 1 if a group failed. */
#include "border.h"

static void test_all(void) {
    test_format();
    test_books();
    test_rules();
    test_order();
    test_create();
    test_grow();
    test_delete();
    test_find();
    test_report();
    test_broken();
    test_read();
    test_write();
    test_show();
    test_place();
    test_withheld();
    test_together();
    test_cards();
}

int main(void) {
    test_all();
    test_words();
    group("all of these again, with slices at odd addresses");
    merge(1);
    odd = 3;
    test_all();
    return summary();
}
