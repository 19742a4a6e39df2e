/* The choice between two objects of the same proved sources: one was compiled for x86-64-v2, the other for x86-64-v3, which has wider vectors.
 * It is trusted, and not proved. */
#include <cpuid.h>
#include <stdlib.h>
#include <string.h>
#include <unistd.h>

enum { CANNOT_RUN = 127 };

/* Ends the process with a line on standard error. It uses no stream, as it may run before main. */
__attribute__((noreturn)) static void refuse(const char *why)
{
    const char *parts[] = {"edgebpf: ", why, "\n"};
    for (size_t at = 0; at < sizeof parts / sizeof *parts; at++)
        if (write(STDERR_FILENO, parts[at], strlen(parts[at])) < 0)
            break;
    _exit(CANNOT_RUN);
}

/* Whether the processor has what x86-64-v3 adds to x86-64-v2 (AVX, AVX2, BMI1, BMI2, F16C, FMA, LZCNT, MOVBE), and the system keeps the wide
 * registers of each thread. */
static int has_v3(void)
{
    const unsigned first = bit_AVX | bit_F16C | bit_FMA | bit_MOVBE | bit_OSXSAVE, seventh = bit_AVX2 | bit_BMI | bit_BMI2, kept = 6;
    unsigned a, b, c, d, low, high;
    if (!__get_cpuid(1, &a, &b, &c, &d) || (c & first) != first)
        return 0;
    __asm__ volatile("xgetbv" : "=a"(low), "=d"(high) : "c"(0));
    if ((low & kept) != kept || !__get_cpuid_count(7, 0, &a, &b, &c, &d) || (b & seventh) != seventh)
        return 0;
    return __get_cpuid(0x80000001, &a, &b, &c, &d) && (c & bit_LZCNT) != 0;
}

/* Whether the object for x86-64-v3 is taken: if the processor has all that it needs, unless EDGEBPF_CPU names one of the two. */
static int takes_v3(void)
{
    const char *forced = getenv("EDGEBPF_CPU");
    if (forced == NULL || forced[0] == '\0')
        return has_v3();
    if (strcmp(forced, "x86-64-v2") == 0)
        return 0;
    if (strcmp(forced, "x86-64-v3") != 0)
        refuse("EDGEBPF_CPU may be x86-64-v2 or x86-64-v3");
    if (!has_v3())
        refuse("EDGEBPF_CPU is x86-64-v3, and this processor, or its system, has not all of that");
    return 1;
}
