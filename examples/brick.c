/* Cuts the unit brick at half its height, and prints the segments of its faces and its section. */
#include "cicelybeam.h"
#include <stdio.h>

#define CORNERS CICELYBEAM_HEX_CORNERS
#define LENGTH(list) (sizeof(list) / sizeof((list)[0]))

static const double coords[] = {
    0, 0, 0, 1, 0, 0, 1, 1, 0, 0, 1, 0, /* the base */
    0, 0, 1, 1, 0, 1, 1, 1, 1, 0, 1, 1, /* above it */
};
static const uint64_t conn[] = {0, 1, 2, 3, 4, 5, 6, 7};
static const double origin[] = {0, 0, 0.5};
static const double normal[] = {0, 0, 1};

static double gathered[CICELYBEAM_GATHER_NUMBERS(CORNERS)];
static double numbers[CICELYBEAM_PLANE_NUMBERS(CORNERS)];
static uint32_t nodes[CICELYBEAM_PLANE_NODES(CORNERS)];
static uint32_t ends[CICELYBEAM_PLANE_ENDS(CORNERS)];

/* Whether this is a refusal; then it is told. */
static int refused(uint32_t refusal) {
  if (refusal != CICELYBEAM_ANSWERED)
    fprintf(stderr, "refused: %u\n", (unsigned)refusal);
  return refusal != CICELYBEAM_ANSWERED;
}

static void print_segments(struct cicelybeam_line g) {
  for (uint32_t k = 0; k < g.segments; k++) {
    const double *s = gathered + 4 * k;
    printf("segment %u: %g %g to %g %g\n", (unsigned)k, s[0], s[1], s[2], s[3]);
  }
}

static void print_loops(struct cicelybeam_section s) {
  uint32_t node = 0;
  for (uint32_t k = 0; k < s.loops; k++) {
    printf("loop");
    for (; node < ends[k]; node++)
      printf(" %u", (unsigned)nodes[node]);
    printf("\n");
  }
}

int main(void) {
  struct cicelybeam_tolerance t = cicelybeam_tolerance_in_space(coords, LENGTH(coords));
  if (refused(t.refusal))
    return 1;
  struct cicelybeam_line g = cicelybeam_gather(CICELYBEAM_HEX8, conn, LENGTH(conn), coords,
                                               LENGTH(coords), origin, LENGTH(origin), normal,
                                               LENGTH(normal), 0, t.value, gathered, LENGTH(gathered));
  if (refused(g.refusal))
    return 1;
  print_segments(g);
  struct cicelybeam_section s = cicelybeam_plane(
      CICELYBEAM_HEX8, conn, LENGTH(conn), coords, LENGTH(coords), origin, LENGTH(origin), normal,
      LENGTH(normal), 0, 0, t.value, numbers, LENGTH(numbers), nodes, LENGTH(nodes), ends, LENGTH(ends));
  if (refused(s.refusal))
    return 1;
  for (uint32_t k = 0; k < s.points; k++)
    printf("point %u: %g %g\n", (unsigned)k, numbers[2 * k], numbers[2 * k + 1]);
  print_loops(s);
  printf("edges listed %u: in loops %u, flat %u, open %u\n", (unsigned)s.listed,
         (unsigned)s.in_loops, (unsigned)s.flat, (unsigned)s.open);
  printf("crossings in the middle by default: %u\n", (unsigned)s.defaulted);
  printf("comparisons of points: %u\n", (unsigned)s.comparisons);
  return 0;
}
