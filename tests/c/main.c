/* Tests of the four functions, called from C. */
#include "expect.h"
#include "rows.h"

int main(void) {
    test_specimen();
    test_rooms();
    test_damaged();
    test_full_size();
    return all_passed() ? 0 : 1;
}
