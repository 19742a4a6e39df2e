/* Writes random edges as lines of two ids, in the style of R-MAT: each bit of a pair of ids is 0 0, 0 1, 1 0 or 1 1 with 18, 6, 6 and 2 of
 * 32. An edge may come more than once.
 *     write_rmat VERTICES EDGES */
#include <stdint.h>
#include <stdio.h>
#include <stdlib.h>

enum { ROOM = 1 << 20, LINE = 32, BITS_OF_A_DRAW = 12 };

static uint64_t state = 88172645463325252u;
static char text[ROOM];
static size_t length;

static uint64_t draw(void) {
    state ^= state << 13, state ^= state >> 7, state ^= state << 17;
    return state;
}

static void write_number(uint32_t number, char end) {
    char digits[10];
    int count = 0;
    do digits[count++] = (char)('0' + number % 10); while (number /= 10);
    while (count) text[length++] = digits[--count];
    text[length++] = end;
}

static void write_all(void) {
    if (fwrite(text, 1, length, stdout) != length) exit(1);
    length = 0;
}

int main(int count, char **words) {
    if (count != 3) return 2;
    const uint32_t vertices = (uint32_t)atol(words[1]);
    int bits = 0;
    while (bits < 28 && 1u << bits < vertices) bits++;
    for (long edges = atol(words[2]); edges > 0; edges--) {
        uint32_t source = 0, target = 0;
        uint64_t drawn = 0;
        for (int bit = 0; bit < bits; bit++) {
            drawn = bit % BITS_OF_A_DRAW ? drawn >> 5 : draw();
            const uint32_t one = drawn & 31;
            source = source << 1 | (one >= 24), target = target << 1 | ((one >= 18 && one < 24) || one >= 30);
        }
        write_number(source % vertices, '\t'), write_number(target % vertices, '\n');
        if (length > ROOM - LINE) write_all();
    }
    write_all();
    return 0;
}
