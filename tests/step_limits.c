/* The limits of the step, from C: the largest mesh, the longest input, the shortest output, and damaged texts. */
#include <stdio.h>
#include <stdlib.h>
#include <string.h>

#include "mesh_step.h"

static uint8_t output[40000];
static int checks;

static void expect(int holds, const char *what) {
    checks++;
    if (!holds) {
        printf("step_limits: failed: %s\n", what);
        exit(1);
    }
}

/* The answer to a text, as a string. */
static const char *answer(const char *text, size_t length) {
    size_t count = mesh_refine_step((const uint8_t *)text, length, output, sizeof output - 1);
    output[count] = 0;
    return (const char *)output;
}

static int answers(const char *text, const char *wanted) { return strcmp(answer(text, strlen(text)), wanted) == 0; }

/* So many pillows side by side, two quads and four points each. */
static size_t pillows(char *text, unsigned n) {
    size_t at = (size_t)sprintf(text, "00 %x %x\n", 2 * n, 4 * n);
    for (unsigned i = 0; i < n; i++) {
        unsigned v = 4 * i;
        at += (size_t)sprintf(text + at, "01 %x %x %x %x %x %x 0 0\n", v, v + 1, v + 2, v + 3, v + 2, v + 3);
        at += (size_t)sprintf(text + at, "01 %x %x %x %x %x %x 0 0\n", v + 2, v + 1, v, v + 3, v, v + 1);
    }
    for (unsigned i = 0; i < n; i++)
        for (unsigned k = 0; k < 4; k++) at += (size_t)sprintf(text + at, "02 %x\n", 8 * i + k);
    return at;
}

int main(void) {
    static char text[20000];
    size_t length = pillows(text, 96);
    expect(strncmp(answer(text, length), "00 300 3c0\n", 11) == 0, "192 quads and 384 points are refined");
    expect(answers("00 c1 180\n", "ff 16 0\n"), "193 quads are too many");
    expect(answers("00 c0 181\n", "ff 16 0\n"), "385 points are too many");

    memset(text, 'x', sizeof text);
    expect(strcmp(answer(text, 9802), "ff 15 0\n") == 0, "9,802 bytes are looked at");
    expect(strcmp(answer(text, 9803), "ff 16 0\n") == 0, "9,803 bytes are not");

    length = pillows(text, 1);
    size_t whole = mesh_refine_step((const uint8_t *)text, length, output, sizeof output);
    expect(whole > 0, "the pillow is refined");
    for (size_t room = 0; room <= whole; room++) {
        memset(output, 0xaa, sizeof output);
        size_t count = mesh_refine_step((const uint8_t *)text, length, output, room);
        expect(count == (room == whole ? whole : 0), "an answer is written whole or not at all");
        for (size_t i = count; i < sizeof output; i++) expect(output[i] == 0xaa, "no byte past the answer is touched");
    }

    expect(answers("", "ff 15 0\n"), "no text");
    expect(answers("00 2 4\n", "ff 15 1\n"), "a missing line");
    expect(answers("00 0 0\n", "ff 2 0\n"), "no quads");
    expect(answers("00 2 4\n01 0 1 2 3 2 3 0 0\n01 2 1 0 3 0 1 1001 0\n02 0\n02 1\n02 2\n02 3\n", "ff 6 2\n"), "a word that is no mark");
    expect(answers("00 2 4\n01 0 1 2 3 3 2 0 0\n01 2 1 0 3 0 1 0 0\n02 0\n02 1\n02 2\n02 3\n", "ff 7 0\n"), "a friend that runs the same way");
    expect(answers("00 2 4\n01 0 1 2 3 2 3 0 0\n01 2 1 0 3 0 1 0 0\n02 0\n02 1\n02 2\n02 2\n", "ff 8 3\n"), "a start of another point");
    printf("tests/c_call: %d checks of the step from C passed\n", checks);
    return 0;
}
