/*
 * What a proved program for x86-64 asks of glibc and musl has not: what the processor has, and `write` by its other name, with which it says what the
 * processor lacks. Nothing here is proved; tests run it.
 */
#include <cpuid.h>
#include <stddef.h>
#include <unistd.h>

/* A leaf of the instruction cpuid, as glibc's <sys/platform/x86.h> has it: what the processor says in eax, ebx, ecx and edx, and what of it can be used. */
struct leaf {
    unsigned said[4], usable[4];
};

/* A program asks for features of x86-64-v2 alone, in the leaves 1 and 80000001 (glibc's numbers 0 and 2): what the processor has of them can be used. */
const struct leaf *__x86_get_cpuid_feature_leaf(unsigned number) {
    static struct leaf leaf;
    static const struct leaf none;
    unsigned *it = leaf.said;
    if ((number != 0 && number != 2) || !__get_cpuid(number == 0 ? 1 : 0x80000001, &it[0], &it[1], &it[2], &it[3])) return &none;
    for (int i = 0; i < 4; i++) leaf.usable[i] = it[i];
    return &leaf;
}

ssize_t __write(int file, const void *bytes, size_t count) { return write(file, bytes, count); }
