/* Calls for cell after cell, so that Python makes one call for many cells. Each answer is kept as it is told; what it wrote
 * stays, and the next cell is lent what is left of the buffers.
 *
 * Cell k has the entries conn[starts[k]] up to but not with conn[starts[k + 1]]. Returned is the number of cells answered: all of
 * them, or those before the first that is refused, whose refusal is in told. */
#include "cicelybeam.h"

/* The sizes of the answers. A library that was linked before a struct had its last field tells another, and is not used. */
size_t size_of_section(void) { return sizeof(struct cicelybeam_section); }
size_t size_of_line(void) { return sizeof(struct cicelybeam_line); }

/* The numbers of arguments of the two functions below, for the same reason. */
size_t arguments_of_plane(void) { return 18; }
size_t arguments_of_gathered(void) { return 13; }

/* By cicelybeam_plane. */
size_t cells_by_plane(uint8_t type, const uint64_t *conn, const uint64_t *starts, size_t cells, const double *coords,
                      size_t coords_len, const double *origin, const double *normal, uint8_t scaled, uint8_t strict, double tol,
                      double *numbers, size_t numbers_len, uint32_t *nodes, size_t nodes_len, uint32_t *ends, size_t ends_len,
                      struct cicelybeam_section *told) {
  for (size_t k = 0; k < cells; k++) {
    told[k] = cicelybeam_plane(type, conn + starts[k], starts[k + 1] - starts[k], coords, coords_len, origin, 3, normal, 3, scaled,
                               strict, tol, numbers, numbers_len, nodes, nodes_len, ends, ends_len);
    if (told[k].refusal) return k;
    numbers += 2 * told[k].points;
    numbers_len -= 2 * told[k].points;
    nodes += told[k].nodes;
    nodes_len -= told[k].nodes;
    ends += told[k].loops;
    ends_len -= told[k].loops;
  }
  return cells;
}

/* By cicelybeam_gather. */
size_t cells_gathered(uint8_t type, const uint64_t *conn, const uint64_t *starts, size_t cells, const double *coords,
                      size_t coords_len, const double *origin, const double *normal, uint8_t scaled, double tol, double *numbers,
                      size_t numbers_len, struct cicelybeam_line *told) {
  for (size_t k = 0; k < cells; k++) {
    told[k] = cicelybeam_gather(type, conn + starts[k], starts[k + 1] - starts[k], coords, coords_len, origin, 3, normal, 3, scaled,
                                tol, numbers, numbers_len);
    if (told[k].refusal) return k;
    numbers += 4 * told[k].segments;
    numbers_len -= 4 * told[k].segments;
  }
  return cells;
}
