/* The shares of two words are kept in memory, in turn, and their exclusive or is put out. Each store of a second share comes right over the first
   one in the operand port and in Store.

task fuel 200 out 2
tape 3c96a1e8 3399aee7 91d40b72 912b0b8d
worlds xor.worlds
*/
#include "task.h"

static volatile unsigned a[2], b[2];

int main(void) {
    a[0] = task_in();
    a[1] = task_in();
    b[0] = task_in();
    b[1] = task_in();
    task_out(a[0] ^ b[0]);
    task_out(a[1] ^ b[1]);
    return 0;
}
