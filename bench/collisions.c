/* Names that have one hash under the seed that everybody knows, for bench/hostile.
 *
 * usage: collisions KIND COUNT
 * KIND is symbols, labels or files. Prints so many names, one on each line. Symbols and labels have 16
 * bytes, files 32. The front of a name counts up. It gives a state of the hash, and so the one value
 * of the next eight bytes that leads to the chosen hash; a name is printed if these bytes may stand in
 * it. The hash is that of the kit's FoldHasher, as mm_frame's and mm_text's names use it.
 *
 * mm_frame hashes a name of 16 bytes by two writes of eight. mm_text hashes the name of a file by one
 * write, and of 16 bytes that is one product of both halves, of which neither can then be chosen; a
 * half that makes a factor 0 isn't UTF-8. So the name of a file has 32 bytes: the first 16 give the
 * state by such a product, and of the others the first eight are chosen, which meet it by a xor. */
#include <stdint.h>
#include <stdio.h>
#include <stdlib.h>
#include <string.h>

#define MULTIPLIER 0x9e3779b97f4a7c15u
#define INITIAL 0x243f6a8885a308d3u
#define LETTERS "ABCDEFGHIJKLMNOPQRSTUVWXYZabcdefghijklmnopqrstuvwxyz0123456789-_"

static uint64_t folded_multiply(uint64_t a, uint64_t b)
{
    unsigned __int128 product = (unsigned __int128)a * b;
    return (uint64_t)product ^ (uint64_t)(product >> 64);
}

/* the state after eight bytes more */
static uint64_t after_eight(uint64_t state, uint64_t bytes)
{
    return folded_multiply(state ^ bytes, MULTIPLIER ^ 16);
}

/* the state after the first sixteen bytes of a longer name, of which the last eight are these */
static uint64_t after_sixteen(uint64_t state, uint64_t front, uint64_t rest)
{
    return folded_multiply(front ^ state, rest ^ MULTIPLIER);
}

static uint64_t number_of(const char *bytes)
{
    uint64_t number;
    memcpy(&number, bytes, 8);
    return number;
}

static void count_up(char *bytes, uint64_t number)
{
    for (int i = 0; i < 8; i++) {
        bytes[i] = LETTERS[number % 64];
        number /= 64;
    }
}

int main(int count, char **words)
{
    if (count != 3) {
        fputs("usage: collisions symbols|labels|files COUNT\n", stderr);
        return 2;
    }
    int is_file = strcmp(words[1], "files") == 0;
    int is_symbol = strcmp(words[1], "symbols") == 0;
    uint64_t wanted = strtoull(words[2], NULL, 10);
    unsigned char may_stand[256] = {0};
    for (int byte = 33; is_symbol && byte < 127; byte++) {
        may_stand[byte] = byte != '$';
    }
    for (const char *letter = LETTERS "."; *letter != 0; letter++) {
        may_stand[(unsigned char)*letter] = 1;
    }
    uint64_t begun = after_eight(INITIAL, 0);
    const char *rest = "filename";
    char front[9] = "", back[9] = "";
    uint64_t target = 0;
    for (uint64_t number = 0, found = 0; found < wanted; number++) {
        count_up(front, number);
        uint64_t state = is_file ? after_sixteen(begun + 32, number_of(front), number_of(rest))
                                 : after_eight(begun, number_of(front));
        if (number == 0) {
            target = state ^ number_of("AAAAAAAA");
        }
        uint64_t next = state ^ target;
        int stands = 1;
        memcpy(back, &next, 8);
        for (int i = 0; i < 8 && stands; i++) {
            stands = may_stand[(unsigned char)back[i]];
        }
        if (stands) {
            printf(is_file ? "%s%s%s%s\n" : "%s%.0s%s%.0s\n", front, rest, back, rest);
            found++;
        }
    }
    return 0;
}
