/* What the emulators of this folder share: images of either version, and the bytes that a program writes. */
#include <stdint.h>
#include <stdio.h>
#include <stdlib.h>
#include <string.h>
#include <unistd.h>

/* a byte goes out at once, so that what is written is seen */
static void put(uint32_t word) {
    uint8_t byte = (uint8_t)word;
    if (write(1, &byte, 1) != 1) exit(1);
}

static uint32_t word_at(const uint8_t *bytes) {
    uint32_t word;
    memcpy(&word, bytes, 4);
    return word;
}

/* a loaded image: its memory, with heap 1048576 and stack 4194304 behind code and globals */
struct image {
    uint8_t *memory;
    uint32_t size, code, heap_at, stack_at;
};

static struct image read_image(const char *path) {
    static uint8_t bytes[41943069];
    FILE *file = fopen(path, "rb");
    if (!file) exit(1);
    size_t length = fread(bytes, 1, sizeof bytes, file);
    fclose(file);
    if (length < 24 || (memcmp(bytes, "PRI1", 4) && memcmp(bytes, "PRI2", 4))) exit(1);
    /* version 2 counts its calls too */
    size_t head = bytes[3] == '2' ? 28 : 24;
    uint32_t global = word_at(bytes + 4), heap = 1048576, stack = 4194304;
    struct image image;
    image.code = 4 * word_at(bytes + 8);
    if (length < head + (size_t)image.code) exit(1);
    image.heap_at = image.code + global;
    image.stack_at = image.heap_at + heap;
    image.size = image.stack_at + stack;
    image.memory = calloc(image.size, 1);
    if (!image.memory) exit(1);
    memcpy(image.memory, bytes + head, image.code);
    return image;
}
