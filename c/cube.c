/* The faces of a cube. */
#include "qconvex.h"
#include <stdio.h>

int main(void) {
    qconvex_point points[9] = {{0, 0, 0}, {0, 0, 1}, {0, 1, 0}, {0, 1, 1}, {1, 0, 0}, {1, 0, 1}, {1, 1, 0}, {1, 1, 1}, {0, 0, 0}};
    uint32_t extremes[9] = {0}, corners[58] = {0};
    size_t offsets[20] = {0};
    qconvex_sizes sizes = {0, 0, 0, 0, 0, 0, 0};
    if (qconvex_hull(points, 9, &sizes, extremes, 9, offsets, 20, corners, 58) != QCONVEX_DONE)
        return 1;
    for (size_t face = 0; face < sizes.faces; face++) {
        for (size_t k = offsets[face]; k < offsets[face + 1]; k++)
            printf("%u ", (unsigned)corners[k]);
        printf("\n");
    }
    return 0;
}
