/* Runs an image by the plain emulator, and tells how it stopped, with the link of a trap; the links in the frames that are open, at most 16; and the
   transcript: the bytes written, and 256 where a byte of the input is taken or its end is first met.

   stops IMAGE STEPS STACK HEAP < INPUT */
#include <stdio.h>
#include <unistd.h>

static unsigned items[1 << 20];
static unsigned count;
static int ended;

static void note(unsigned item) {
    if (count < sizeof items / sizeof *items) items[count++] = item;
}

static long noted(const unsigned char *byte) {
    note(*byte);
    return 1;
}

static int looked(void) {
    int byte = getchar();
    if (byte != EOF || !ended) note(256);
    if (byte == EOF) ended = 1;
    return byte;
}

#define write(file, byte, length) noted(byte)
#define getchar looked
#define main emulator
#include "emulator.c"
#undef main

int main(int words, char **word) {
    if (words != 5) return 1;
    struct machine m;
    uint64_t steps = strtoull(word[2], 0, 10), made = 0;
    uint32_t stack = (uint32_t)strtoul(word[3], 0, 10), heap = (uint32_t)strtoul(word[4], 0, 10);
    enum stop stop = NONE;
    load(&m, word[1]);
    uint32_t code = m.r[13];
    uint32_t heap_at = m.r[0];
    m.size = heap_at + heap + stack;
    m.memory = realloc(m.memory, m.size);
    memset(m.memory + code, 0, m.size - code);
    m.r[1] = heap_at + heap;
    m.r[14] = m.size;
    while (made < steps && stop == NONE) {
        stop = step(&m);
        made++;
    }
    printf("%s", stop ? names[stop] : "more");
    if (stop == TRAP) printf(" %u", trapped(&m));
    printf(";");
    uint32_t frame = m.r[14];
    for (int k = 0; k < 16 && frame % 4 == 0 && (uint64_t)frame + 8 <= m.size; k++) {
        printf(" %u", word_at(m.memory + frame));
        frame = word_at(m.memory + frame + 4);
    }
    printf(";");
    for (unsigned k = 0; k < count; k++) printf(" %u", items[k]);
    printf("\n");
    return 0;
}
