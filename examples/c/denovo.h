/* What C functions need of the machine: locks. Regions are arrays that a function names by extern. */
#ifndef DENOVO_H
#define DENOVO_H

/* The number of a lock that the plan declares, by its name. */
#define LOCK(name) (LOCK_##name)

/* Takes the lock, and waits while another core has it. */
static inline void acquire(unsigned lock)
{
    register unsigned number __asm__("a0") = lock;
    register unsigned call __asm__("a7") = 1;
    __asm__ volatile("ecall" : : "r"(number), "r"(call) : "memory");
}

/* Gives the lock back. */
static inline void release(unsigned lock)
{
    register unsigned number __asm__("a0") = lock;
    register unsigned call __asm__("a7") = 2;
    __asm__ volatile("ecall" : : "r"(number), "r"(call) : "memory");
}

#endif
