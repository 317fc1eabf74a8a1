/* A two-share AND, as a textbook writes it. The compiler sees that (a0 & b0) ^ (a0 & b1) is a0 & (b0 ^ b1), and computes b.

task fuel 200 out 2
tape 3c96a1e8 3399aee7 91d40b72 912b0b8d 5e07c3b9
worlds and.worlds
*/
#include "task.h"

int main(void) {
    unsigned a0 = task_in(), a1 = task_in();
    unsigned b0 = task_in(), b1 = task_in();
    unsigned r = task_in();
    task_out((a0 & b0) ^ ((a0 & b1) ^ r));
    task_out((a1 & b1) ^ ((a1 & b0) ^ r));
    return 0;
}
