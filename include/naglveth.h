/* The bound calculator for scope graphs, for programs in C.
 *
 * Each call opens the image and works its graph out in the caller's tables. It gives 0 and writes the bound of scope 0,
 * or it gives the number of a refusal (docs/REFUSALS.md) and leaves *bound as it is. The work table needs 128 places,
 * the trail 331 lines for each scope of the graph; docs/ANALYSIS.md says what they hold afterwards. Where opening
 * refuses the image (11 to 16) both tables are left as they are. Nothing is allocated.
 */
#ifndef NAGLVETH_H
#define NAGLVETH_H

#include <stddef.h>
#include <stdint.h>

/* A number of cycles; 2^64 - 1 stands for that much or more. */
typedef struct {
    uint64_t count;
} naglveth_cycles_cost;

/* A height of the stack, in bytes. */
typedef struct {
    uint16_t bytes;
} naglveth_stack_cost;

/* A line of the trail. */
typedef struct {
    uint8_t kind;
    uint16_t a;
    uint16_t b;
} naglveth_line;

uint8_t naglveth_cycles(const uint8_t *image, size_t image_length, naglveth_cycles_cost *work, size_t work_length,
                        naglveth_line *trail, size_t trail_length, uint64_t *bound);

uint8_t naglveth_stack(const uint8_t *image, size_t image_length, naglveth_stack_cost *work, size_t work_length,
                       naglveth_line *trail, size_t trail_length, uint16_t *bound);

#endif
