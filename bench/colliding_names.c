// Prints a plan of so many names, 16 a line, that all begin their search at one place of a hash table
// whose seed is fixed. The table is one of the toolchain's: it folds the length and each byte into 64 bits,
// adds the two halves by an exclusive or, and takes the low bits for a group of nine names on average.
#include <stdint.h>
#include <stdio.h>
#include <stdlib.h>

static const uint64_t multiplier = 0x9e3779b97f4a7c15u;

static uint64_t fold(uint64_t a, uint64_t b) {
    unsigned __int128 product = (unsigned __int128)a * b;
    return (uint64_t)product ^ (uint64_t)(product >> 64);
}

static uint64_t with_byte(uint64_t state, uint8_t byte) {
    return fold(state ^ (uint64_t)byte * 0x10101, multiplier ^ 2);
}

// Seven letters and digits after a letter: 64 of them, so that a name is a number of base 64.
enum { NAME = 8, LETTERS = 64 };

static const char letters[] = "0123456789ABCDEFGHIJKLMNOPQRSTUVWXYZabcdefghijklmnopqrstuvwxyz_.";

static long found = 0;

static void print_name(const char *name) {
    printf("%s/%s", found % 16 ? "" : "stat ", name);
    found++;
    if (found % 16 == 0) printf("\n");
}

// The names that begin with six fixed letters.
static void print_group(char *name, uint64_t state, uint32_t mask, long wanted) {
    for (int a = 0; a < LETTERS; a++) {
        uint64_t next = with_byte(state, letters[a]);
        for (int b = 0; b < LETTERS && found < wanted; b++) {
            uint64_t hash = with_byte(next, letters[b]);
            if (((uint32_t)(hash ^ (hash >> 32)) & mask) != 0) continue;
            name[NAME - 2] = letters[a];
            name[NAME - 1] = letters[b];
            print_name(name);
        }
    }
}

int main(int argc, char **argv) {
    if (argc != 2) return 2;
    long wanted = atol(argv[1]);
    uint32_t groups = 1;
    while (9L * groups < wanted) groups *= 2;
    uint64_t start = fold(0x243f6a8885a308d3u ^ (uint64_t)NAME, multiplier ^ (2 * 8));
    char name[NAME + 1] = {0};
    printf("afr 1\nvolume replica\nfiles 0\nturns 1\nclient 1\n");
    for (uint64_t prefix = 0; found < wanted; prefix++) {
        uint64_t state = start, rest = prefix;
        for (int i = 0; i < NAME - 2; i++) {
            name[i] = i == 0 ? letters[10 + rest % 50] : letters[rest % LETTERS];
            rest /= i == 0 ? 50 : LETTERS;
            state = with_byte(state, name[i]);
        }
        print_group(name, state, groups - 1, wanted);
    }
    printf(found % 16 ? "\nend\n" : "end\n");
    return 0;
}
