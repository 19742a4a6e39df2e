/* The functions of a library that has both objects. Each jumps to the object that was chosen as the process began. Handles are laid out alike in
 * both, so a call before that, from a constructor that runs earlier, goes to the object for x86-64-v2 and does no harm. A loader's own choice
 * (ifunc) comes before the C library has the environment, so no variable could force it.
 * dist/link writes functions.h: `FUNCTION(name)` for each function that the library exports. */
#include "processor.h"

enum { BEFORE_OTHER_CONSTRUCTORS = 101 };

#define HIDDEN __attribute__((visibility("hidden")))
#define FUNCTION(name)                                                                                                        \
    extern const char name##_v2[] HIDDEN, name##_v3[] HIDDEN;                                                                 \
    HIDDEN const void *name##_chosen = name##_v2;                                                                             \
    __asm__(".pushsection .text\n\t.globl " #name "\n\t.type " #name ",@function\n" #name ":\n\t.cfi_startproc\n\t"           \
            "jmp *" #name "_chosen(%rip)\n\t.cfi_endproc\n\t.size " #name ",.-" #name "\n\t.popsection");
#include "functions.h"
#undef FUNCTION

__attribute__((constructor(BEFORE_OTHER_CONSTRUCTORS))) static void choose(void)
{
    if (!takes_v3())
        return;
#define FUNCTION(name) name##_chosen = name##_v3;
#include "functions.h"
}
