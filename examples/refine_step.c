/* Reads a mesh text from standard input, refines it once and writes the answer: what a controller written in C does. */
#include <stdio.h>

#include "mesh_step.h"

int main(void) {
    static uint8_t input[9803]; /* one byte more than is taken, so that a longer text shows */
    static uint8_t output[35147];
    size_t have = fread(input, 1, sizeof input, stdin);
    size_t count = mesh_refine_step(input, have, output, sizeof output);
    return fwrite(output, 1, count, stdout) == count ? 0 : 1;
}
