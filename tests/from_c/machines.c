// Records of 32 bytes. State machines, and branches by `switch`.
#include <edgebpf.h>

enum state { START, WORD, NUMBER, BLANK, FAILED };

u64 kind_of_edge(struct edge *edge, u64 length) {
    switch (edge->argument[0] & 7) {
    case 0: return 10;
    case 1: return 25;
    case 2: return 3;
    case 3: return 77;
    case 4: return 8;
    case 5: return 41;
    case 6: return 0;
    default: return 99;
    }
}
u64 weight_by_kind(struct edge *edge, u64 length) {
    u64 factor;
    switch (edge->target % 6) {
    case 0: factor = 100; break;
    case 1: factor = 31; break;
    case 2: factor = 7; break;
    case 3: factor = 59; break;
    case 4: factor = 2; break;
    default: factor = 1;
    }
    return factor * edge->source;
}
u64 operation(struct edge *edge, u64 length) {
    u64 left = edge->source, right = edge->target;
    switch (edge->argument[0] % 9) {
    case 0: return left + right;
    case 1: return left - right;
    case 2: return left * right;
    case 3: return right ? left / right : 0;
    case 4: return right ? left % right : 0;
    case 5: return left & right;
    case 6: return left | right;
    case 7: return left ^ right;
    default: return left << (right & 15);
    }
}
u64 small_machine(struct edge *edge, u64 length) {
    u64 accumulator = edge->target;
    for (int i = 0; i < 8; i++) {
        u8 code = edge->argument[2 * i], value = edge->argument[2 * i + 1];
        switch (code & 3) {
        case 0: accumulator += value; break;
        case 1: accumulator ^= (u64)value << 8; break;
        case 2: accumulator = accumulator >> 1 | accumulator << 63; break;
        case 3: if (accumulator & 1) accumulator *= value | 1; break;
        }
    }
    return accumulator;
}
u64 words_in_text(struct edge *edge, u64 length) {
    enum state state = BLANK;
    u64 words = 0;
    for (int i = 0; i < 16; i++) {
        u8 letter = edge->argument[i] & 31;
        switch (state) {
        case BLANK: if (letter > 4) state = letter < 10 ? NUMBER : WORD, words++; break;
        case WORD: if (letter <= 4) state = BLANK; break;
        case NUMBER: if (letter <= 4) state = BLANK; else if (letter >= 10) state = FAILED; break;
        default: if (letter == 0) state = BLANK;
        }
    }
    return words * 8 + state;
}
u64 is_number(struct edge *edge, u64 length) {
    u64 value = 0, digits = 0;
    for (int i = 0; i < 16; i++) {
        u8 letter = edge->argument[i];
        if (letter < '0' || letter > '9') break;
        value = value * 10 + (letter - '0');
        digits++;
    }
    return value * 32 + digits;
}
u64 brackets(struct edge *edge, u64 length) {
    s32 depth = 0, deepest = 0;
    for (int i = 0; i < 16; i++) {
        if (edge->argument[i] & 1) depth++;
        else if (edge->argument[i] & 2) depth--;
        if (depth < 0) return 1000;
        if (depth > deepest) deepest = depth;
    }
    return depth == 0 ? deepest : 100 + depth;
}
u64 pattern(struct edge *edge, u64 length) {
    u32 matched = 0;
    for (int i = 0; i < 16; i++) {
        u8 letter = edge->argument[i] & 3;
        if (letter == (matched & 3)) matched++;
        else matched = letter == 0;
        if (matched == 4) return i;
    }
    return 99;
}
u64 traffic_light(struct edge *edge, u64 length) {
    int light = 0;
    for (u32 i = 0; i < (edge->target & 31); i++) {
        if (light == 0) light = 1;
        else if (light == 1) light = edge->source & 1 ? 2 : 0;
        else light = 0;
    }
    return light;
}
u64 collatz(struct edge *edge, u64 length) {
    u64 value = edge->target + 1, steps = 0;
    for (int i = 0; i < 60 && value != 1; i++) {
        value = value & 1 ? 3 * value + 1 : value / 2;
        steps++;
    }
    return steps;
}
u64 game_of_life(struct edge *edge, u64 length) {
    u64 row = *(u64 *)edge->argument;
    for (int i = 0; i < 8; i++) row = ((row << 1 ^ row >> 1) & ~row) | (row & row >> 3);
    return row;
}
u64 rule_30(struct edge *edge, u64 length) {
    u64 cells = (u64)edge->source << 32 | edge->target;
    for (int i = 0; i < 20; i++) cells = cells >> 1 ^ (cells | cells << 1);
    return cells;
}
u64 luhn(struct edge *edge, u64 length) {
    u32 sum = 0;
    for (int i = 0; i < 16; i++) {
        u32 digit = edge->argument[i] % 10;
        if (i & 1) {
            digit *= 2;
            if (digit > 9) digit -= 9;
        }
        sum += digit;
    }
    return sum % 10;
}
u64 varint(struct edge *edge, u64 length) {
    u64 value = 0;
    for (int i = 0; i < 9; i++) {
        u8 byte = edge->argument[i];
        value |= (u64)(byte & 127) << 7 * i;
        if (!(byte & 128)) break;
    }
    return value;
}
u64 varint_size(struct edge *edge, u64 length) {
    u64 value = hash(edge->target) >> (edge->source & 63), size = 1;
    while (value >= 128) {
        value >>= 7;
        size++;
    }
    return size;
}
u64 hex_digit(struct edge *edge, u64 length) {
    u8 letter = edge->argument[0];
    if (letter >= '0' && letter <= '9') return letter - '0';
    if (letter >= 'a' && letter <= 'f') return letter - 'a' + 10;
    if (letter >= 'A' && letter <= 'F') return letter - 'A' + 10;
    return 16;
}
u64 nested_choice(struct edge *edge, u64 length) {
    switch (edge->argument[0] & 3) {
    case 0:
        switch (edge->argument[1] & 3) {
        case 0: return edge->source;
        case 1: return edge->target;
        default: return 5;
        }
    case 1: return edge->degree;
    case 2:
        if (edge->place > 3) return edge->place;
        /* falls through */
    default: return 1;
    }
}
u64 token_bucket(struct edge *edge, u64 length) {
    u32 tokens = 10, passed = 0;
    for (int i = 0; i < 16; i++) {
        tokens += edge->argument[i] & 3;
        if (tokens > 20) tokens = 20;
        u32 cost = edge->argument[i] >> 5;
        if (tokens >= cost) tokens -= cost, passed++;
    }
    return passed;
}
u64 sparse_switch(struct edge *edge, u64 length) {
    switch (edge->target) {
    case 1: return 11;
    case 5: return 7;
    case 17: return 3;
    case 100: return 101;
    case 1000: return 9;
    default: return edge->target * 2;
    }
}
