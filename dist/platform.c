/* What the proved programs ask of the platform beside the C library: memory, the words that the program was started with,
 * and errno. The programs are proved against statements of these functions, which the kit that proves them has in its
 * libraries libc and os; these definitions are trusted, and not proved. */
#include <errno.h>
#include <stddef.h>
#include <stdint.h>
#include <stdlib.h>

/* Whether memory was taken, and the block. It is returned in two registers. */
struct tried {
    uint64_t ok;
    void *block;
};

static struct tried tried(void *block)
{
    /* A block that was not taken is never read or written; its address only may not be null. */
    static char none;
    return (struct tried){block != NULL, block != NULL ? block : &none};
}

/* A block of `size` bytes. Alignments divide 16, which malloc gives to every block. A block of no bytes is taken as one of
 * `align` bytes, so that it has an address of its own. */
struct tried rattle_alloc(size_t size, size_t align)
{
    return tried(malloc(size != 0 ? size : align));
}

/* The block with `size` bytes, of which the first ones are as they were. If that fails, the block is as it was. */
struct tried rattle_realloc(void *block, size_t kept, size_t size, size_t align)
{
    (void)kept;
    return tried(realloc(block, size != 0 ? size : align));
}

void rattle_dealloc(void *block)
{
    free(block);
}

static size_t word_count;
static char **all_words;

/* glibc hands the words to each constructor, before main. */
__attribute__((constructor)) static void keep_words(int count, char **words)
{
    word_count = count > 0 ? (size_t)count : 0;
    all_words = words;
}

size_t rattle_arg_count(void)
{
    return word_count;
}

/* Copies word `index` to the start of the buffer, without its last zero. Returns its length, -1 if there is no such word, or
 * -2 if it does not fit; the buffer is full then. */
ptrdiff_t rattle_arg(size_t index, char *buffer, size_t room)
{
    if (index >= word_count || all_words[index] == NULL)
        return -1;
    const char *word = all_words[index];
    size_t length = 0;
    for (; word[length] != '\0'; length++) {
        if (length == room)
            return -2;
        buffer[length] = word[length];
    }
    return (ptrdiff_t)length;
}

int32_t rattle_errno(void)
{
    return errno;
}

void rattle_set_errno(int32_t error)
{
    errno = error;
}
