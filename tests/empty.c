/* Calls each function with empty lists whose pointers are NULL, those with a strict way in both ways, those that take
 * a normal as it is given and scaled. Prints nothing; the status is 0 if each answers as the header says. */
#include "cicelybeam.h"

static int is_empty(struct cicelybeam_section s, uint32_t refusal) {
  return s.refusal == refusal && s.points == 0 && s.nodes == 0 && s.loops == 0 && s.listed == 0 &&
         s.in_loops == 0 && s.pinched == 0 && s.flat == 0 && s.open == 0 && s.defaulted == 0 &&
         s.comparisons == 0;
}

static int is_none(struct cicelybeam_line l, uint32_t refusal) {
  return l.refusal == refusal && l.segments == 0 && l.defaulted == 0;
}

static int is_tolerance(struct cicelybeam_tolerance t) {
  return t.refusal == CICELYBEAM_ANSWERED && t.value == 1e-12;
}

/* A polyhedron without a face and a polygon without a corner are cells, so a length is refused. */
static int cuts(uint8_t scaled, uint8_t strict) {
  const double *none = NULL;
  double *numbers = NULL;
  uint32_t *places = NULL;
  return is_empty(cicelybeam_plane(CICELYBEAM_HEX8, NULL, 0, none, 0, none, 0, none, 0, scaled, strict, 0,
                                   numbers, 0, places, 0, places, 0),
                  CICELYBEAM_WRONG_NODE_COUNT) &&
         is_empty(cicelybeam_plane(CICELYBEAM_PHED, NULL, 0, none, 0, none, 0, none, 0, scaled, strict, 0,
                                   numbers, 0, places, 0, places, 0),
                  CICELYBEAM_WRONG_LENGTH) &&
         is_none(cicelybeam_gather(CICELYBEAM_HEX8, NULL, 0, none, 0, none, 0, none, 0, scaled, 0, numbers, 0),
                 CICELYBEAM_WRONG_NODE_COUNT) &&
         is_none(cicelybeam_gather(CICELYBEAM_PHED, NULL, 0, none, 0, none, 0, none, 0, scaled, 0, numbers, 0),
                 CICELYBEAM_WRONG_LENGTH) &&
         is_none(cicelybeam_line_in_space(CICELYBEAM_PHED, NULL, 0, none, 0, none, 0, none, 0, 0,
                                          numbers, 0),
                 CICELYBEAM_WRONG_LENGTH) &&
         is_none(cicelybeam_plane_cell_by_normal(CICELYBEAM_PGON, NULL, 0, none, 0, none, 0, none, 0, scaled, 0,
                                                 numbers, 0),
                 CICELYBEAM_WRONG_LENGTH) &&
         is_none(cicelybeam_plane_cell_by_direction(0, NULL, 0, none, 0, none, 0, none, 0, 0, numbers,
                                                    0),
                 CICELYBEAM_WRONG_TYPE);
}

/* With a cut placed, cells without a corner have an empty section, in buffers of no length. */
static int sections(uint8_t scaled, uint8_t strict) {
  static const double up[] = {0, 0, 1};
  static const double across[] = {0, 1};
  return is_empty(cicelybeam_plane(CICELYBEAM_PHED, NULL, 0, NULL, 0, up, 3, up, 3, scaled, strict, 0, NULL,
                                   0, NULL, 0, NULL, 0),
                  CICELYBEAM_ANSWERED) &&
         is_empty(cicelybeam_stitch(NULL, 0, strict, 0, NULL, 0, NULL, 0, NULL, 0), CICELYBEAM_ANSWERED) &&
         is_none(cicelybeam_gather(CICELYBEAM_PHED, NULL, 0, NULL, 0, up, 3, up, 3, scaled, 0, NULL, 0),
                 CICELYBEAM_ANSWERED) &&
         is_none(cicelybeam_plane_cell_by_normal(CICELYBEAM_PGON, NULL, 0, NULL, 0, across, 2, across, 2,
                                                 scaled, 0, NULL, 0),
                 CICELYBEAM_ANSWERED);
}

int main(void) {
  static const uint8_t ways[] = {0, 1, 255};
  int right = 1;
  for (int k = 0; k < 3; k++)
    for (int l = 0; l < 3; l++)
      right = right && cuts(ways[k], ways[l]) && sections(ways[k], ways[l]);
  right = right && is_tolerance(cicelybeam_tolerance_in_space(NULL, 0)) &&
              is_tolerance(cicelybeam_tolerance_in_plane(NULL, 0)) && cicelybeam_sqrt(4) == 2;
  return right ? 0 : 1;
}
