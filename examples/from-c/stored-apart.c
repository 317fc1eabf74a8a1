/* The exclusive or of spilled.c, with stores and loads that keep shares apart.

task fuel 200 out 2
tape 3c96a1e8 3399aee7 91d40b72 912b0b8d
worlds xor.worlds
*/
#include "task.h"

static unsigned a[2], b[2];

int main(void) {
    store_apart(&a[0], task_in());
    store_apart(&a[1], task_in());
    store_apart(&b[0], task_in());
    store_apart(&b[1], task_in());
    task_out(xor_apart(load_apart(&a[0]), load_apart(&b[0])));
    task_out(xor_apart(load_apart(&a[1]), load_apart(&b[1])));
    return 0;
}
