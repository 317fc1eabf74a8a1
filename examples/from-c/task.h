/* What a task in C needs: the four services, and operations that keep shares apart. */
#ifndef TASK_H
#define TASK_H

/* Always in line: a function that is called would hand its words on in a0, one after the other. */
#define TASK_INLINE static inline __attribute__((always_inline))

/* Service 0: the task ends, with this code. */
TASK_INLINE void task_exit(unsigned code) {
    __asm__ volatile("mv a0,%0\n\tli a7,0\n\tecall" : : "r"(code) : "a0", "a7", "memory");
    __builtin_unreachable();
}

/* Service 1: the word goes into the output. a0 is cleared before and after it. */
TASK_INLINE void task_out(unsigned word) {
    __asm__ volatile("li a0,0\n\tli a7,1\n\tmv a0,%0\n\tecall\n\tli a0,0" : : "r"(word) : "a0", "a7", "memory");
}

/* Service 2: the next word of the tape. a0 is cleared, so that the next word doesn't come over this one, and so is the register that it goes to. */
TASK_INLINE unsigned task_in(void) {
    unsigned word;
    __asm__ volatile("li a7,2\n\tecall\n\tli %0,0\n\tmv %0,a0\n\tli a0,0" : "=&r"(word) : : "a0", "a7", "memory");
    return word;
}

/* Service 3: the hart may take another task. */
TASK_INLINE void task_yield(void) {
    __asm__ volatile("li a7,3\n\tecall" : : : "a7", "memory");
}

/* Operations on shares. The compiler doesn't know what they do, so it can't put two of them together, and it keeps their order. The register of the
   result is cleared first, whatever was in it, and the operand ports and Res are cleared after it. */
#define APART(name, word)                                                                                                        \
    TASK_INLINE unsigned name(unsigned x, unsigned y) {                                                                        \
        unsigned z;                                                                                                              \
        __asm__ volatile("li %0,0\n\t" word " %0,%1,%2\n\tadd x0,x0,x0" : "=&r"(z) : "r"(x), "r"(y));                           \
        return z;                                                                                                                \
    }
APART(and_apart, "and")
APART(xor_apart, "xor")
APART(or_apart, "or")
APART(add_apart, "add")
APART(sub_apart, "sub")

/* A public word, which is stored and loaded between shares. */
static volatile unsigned task_public;

/* Stores a share: its word is cleared first, and a public word goes through the ports and Store before and after it. */
TASK_INLINE void store_apart(unsigned *to, unsigned x) {
    __asm__ volatile("sw x0,%0\n\tsw %1,%0\n\tsw x0,%2" : "=&m"(*to) : "r"(x), "m"(task_public) : "memory");
}

/* Loads a share: the register is cleared first, and Load after it. */
TASK_INLINE unsigned load_apart(const unsigned *from) {
    unsigned z;
    __asm__ volatile("li %0,0\n\tlw %0,%1\n\tlw x0,%2" : "=&r"(z) : "m"(*from), "m"(task_public) : "memory");
    return z;
}
#endif
