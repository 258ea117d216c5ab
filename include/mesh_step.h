/* A mesh text refined once, on bytes.
 *
 * input, input_length    the text of a closed quad mesh, in lines as docs/LINES.md has them. At most 192 quads, 384 points and
 *                        9,802 bytes are taken. It may be any bytes.
 * output, output_length  where the answer goes. 35,147 bytes are always enough. The two may not overlap.
 *
 * Returns how many bytes of output were written, from its first one on. They are the text of the mesh refined once, or, where the
 * input is refused, one line of kind ff with the number and the place of the refusal in hexadecimal, as docs/REFUSALS.md has them.
 * Returns 0, and writes nothing, where output is too short for the answer. Bytes past the count are never touched.
 *
 * Nothing is allocated and nothing is kept between calls; its tables, 46,080 bytes, lie on the stack, and
 * how much more the compiled code uses was not measured. Calls may run at the same time on
 * buffers of their own.
 *
 * Link with target/staticlib/libstep.a, the static library of the crate step_c, which `bin/staticlib step_c step` makes.
 */
#ifndef MESH_STEP_H
#define MESH_STEP_H

#include <stddef.h>
#include <stdint.h>

#ifdef __cplusplus
extern "C" {
#endif

size_t mesh_refine_step(const uint8_t *input, size_t input_length, uint8_t *output, size_t output_length);

#ifdef __cplusplus
}
#endif

#endif
