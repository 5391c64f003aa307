/* Each addressing form of each write-back: the one of number i, from 0, writes back the line at 0x10000000 + 128 i. */
#include "pool.h"

/* rax, rbx and the others hold what makes each address the next one. The operands are those of AT&T. */
#define FORM(instruction, operand, registers...) __asm__ volatile(instruction " " operand : : registers : "memory")

#define FORMS(instruction, first) \
    do { \
        unsigned long at = POOL + 128 * (first), self; \
        __asm__ volatile("mov %%fs:0, %0" : "=r"(self)); \
        FORM(instruction, "(%%rax)", "a"(at)); \
        FORM(instruction, "(%%rbx)", "b"(at + 128)); \
        FORM(instruction, "64(%%rcx)", "c"(at + 256 - 64)); \
        FORM(instruction, "-64(%%rdx)", "d"(at + 384 + 64)); \
        FORM(instruction, "0x1000(%%rsi)", "S"(at + 512 - 0x1000)); \
        FORM(instruction, "-0x1000(%%rdi)", "D"(at + 640 + 0x1000)); \
        FORM(instruction, "(%%rax,%%rcx)", "a"(at + 768 - 5), "c"(5UL)); \
        FORM(instruction, "(%%rax,%%rcx,8)", "a"(at + 896 - 40), "c"(5UL)); \
        FORM(instruction, "16(%%rax,%%rcx,4)", "a"(at + 1024 - 36), "c"(5UL)); \
        FORM(instruction, "0x1000(%%rax,%%rcx,2)", "a"(at + 1152 - 10 - 0x1000), "c"(5UL)); \
        FORM(instruction, "0x1000(,%%rcx,8)", "c"((at + 1280 - 0x1000) / 8)); \
        __asm__ volatile("mov %0, %%r12; " instruction " (%%r12)" : : "r"(at + 1408) : "r12", "memory"); \
        __asm__ volatile("mov %0, %%r12; " instruction " 8(%%r12)" : : "r"(at + 1536) : "r12", "memory"); \
        __asm__ volatile("mov %0, %%r13; " instruction " (%%r13)" : : "r"(at + 1664) : "r13", "memory"); \
        __asm__ volatile("mov %0, %%r13; mov $7, %%r12; " instruction " (%%r13,%%r12,1)" \
                         : : "r"(at + 1792) : "r12", "r13", "memory"); \
        __asm__ volatile("mov %0, %%r15; mov $4, %%r14; " instruction " 4(%%r15,%%r14,8)" \
                         : : "r"(at + 1920) : "r14", "r15", "memory"); \
        __asm__ volatile("mov %%rsp, %%rbx; mov %0, %%rsp; " instruction " (%%rsp); mov %%rbx, %%rsp" \
                         : : "a"(at + 2048) : "rbx", "memory"); \
        __asm__ volatile("mov %%rbp, %%rbx; mov %0, %%rbp; " instruction " (%%rbp); mov %%rbx, %%rbp" \
                         : : "a"(at + 2176) : "rbx", "memory"); \
        FORM(instruction, "(%%eax)", "a"(at + 2304)); \
        FORM(instruction, "%%fs:(%%rax)", "a"(at + 2432 - self)); \
    } while (0)

enum { FORMS_OF_EACH = 20 };

int main(int count, char **words)
{
    if (count != 2)
        return 9;
    map_at(POOL, open_file(words[1]), MAP_SHARED);
    FORMS("clwb", 0);
    FORMS("clflushopt", FORMS_OF_EACH);
    FORMS("clflush", 2 * FORMS_OF_EACH);
    /* (the linker sets these names: at the lines behind those of the forms above) */
    __asm__ volatile("clwb to_clwb(%%rip)" : : : "memory");
    __asm__ volatile("clflushopt to_clflushopt(%%rip)" : : : "memory");
    __asm__ volatile("clflush to_clflush(%%rip)" : : : "memory");
    return 0;
}
