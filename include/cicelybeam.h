/* Cicelybeam: one cell of a finite-element mesh, cut by a plane or a line, and the mesh tolerance.
 *
 * Link with target/staticlib/libcicelybeam.a (made by `tools/staticlib cicelybeam`), which needs memcpy and
 * memset of the C library and nothing else. Every function is proved to return, to read only what it is
 * lent and to write only what its answer says, for any numbers at all, NaN and infinities included. None
 * allocates, and none keeps anything from call to call, so any threads may call at once.
 *
 * A list is a pointer and a number of elements. The pointer may be NULL where that number is 0. The
 * buffers of one call must overlap neither one another nor what is read.
 *
 * An answer has a refusal number. 0: the answer is there. Else: all other fields are 0, and the lent
 * buffers are untouched. Where a buffer is longer than what was written, the rest keeps its contents.
 * That is proved up to the bits of a NaN, of which the proofs know one; runs show that its bits stay. */
#ifndef CICELYBEAM_H
#define CICELYBEAM_H

#include <stddef.h>
#include <stdint.h>

#ifdef __cplusplus
extern "C" {
#endif

/* ---- Types of cells
 * The number is mefikit's. The first nodes are the corners; mid-side nodes are never read. */

/* In space, three coordinates a row. */
#define CICELYBEAM_TET4 12    /*  4 nodes */
#define CICELYBEAM_TET10 13   /* 10 nodes, the first  4 corners */
#define CICELYBEAM_HEX8 14    /*  8 nodes */
#define CICELYBEAM_HEX21 15   /* 21 nodes, the first  8 corners */
#define CICELYBEAM_WEDGE6 16  /*  6 nodes */
#define CICELYBEAM_WEDGE15 17 /* 15 nodes, the first  6 corners */
/* A polyhedron: at most 256 entries, the nodes of each face with CICELYBEAM_FACE_END between faces.
 * A face of less than three nodes is dropped, and its nodes are never read. */
#define CICELYBEAM_PHED 18
#define CICELYBEAM_FACE_END UINT64_MAX

/* In the plane, two coordinates a row. */
#define CICELYBEAM_TRI3 5  /* 3 nodes */
#define CICELYBEAM_TRI6 6  /* 6 nodes, the first 3 corners */
#define CICELYBEAM_TRI7 7  /* 7 nodes, the first 3 corners */
#define CICELYBEAM_QUAD4 8 /* 4 nodes */
#define CICELYBEAM_QUAD8 9 /* 8 nodes, the first 4 corners */
#define CICELYBEAM_QUAD9 10 /* 9 nodes, the first 4 corners */
#define CICELYBEAM_PGON 11 /* at most 256 nodes, all corners */

/* The most entries of a PHED and nodes of a PGON, and the most segments that are stitched. */
#define CICELYBEAM_MOST_ENTRIES 256
#define CICELYBEAM_MOST_SEGMENTS 384

/* ---- Refusals
 * The smallest number that applies is told; stitching alone tests 8, then 7. */

#define CICELYBEAM_ANSWERED 0
/* To be mended by who describes the cell. */
#define CICELYBEAM_WRONG_TYPE 1       /* this function does not cut cells of this type */
#define CICELYBEAM_WRONG_NODE_COUNT 2 /* not the type's number of nodes, or over 256 for PHED or PGON */
#define CICELYBEAM_PARTIAL_ROW 3      /* the coordinates are not whole rows of 3 (2 in the plane) */
#define CICELYBEAM_NO_SUCH_ROW 4      /* a corner's node number is no row of the coordinates */
/* To be mended by who places the cut. */
#define CICELYBEAM_WRONG_LENGTH 5 /* origin, normal or direction is not 3 numbers (2 in the plane) */
#define CICELYBEAM_NO_DIRECTION 6 /* a vector's norm is not greater than 0, so it has no direction;
                                   * or a component of a normal that is to be scaled is not finite */
/* To be mended by who lends the buffers. */
#define CICELYBEAM_SHORT_BUFFER 7 /* one of them is shorter than the sizes below */
/* To be mended by who calls the stitching. */
#define CICELYBEAM_WRONG_SEGMENTS 8 /* not four numbers a segment, or over 384 segments */

/* ---- Sizes of the buffers
 * In elements. m is the number of corners of all faces that are kept: 12, 18 or 24 for tetrahedron,
 * wedge and brick, and for a PHED at most the number of its entries. A longer buffer does as well, so
 * one for CICELYBEAM_MOST_ENTRIES fits every cell. */

#define CICELYBEAM_TET_CORNERS 12
#define CICELYBEAM_WEDGE_CORNERS 18
#define CICELYBEAM_HEX_CORNERS 24

/* A space cell cut by a plane. */
#define CICELYBEAM_PLANE_NUMBERS(m) (6 * (m))
#define CICELYBEAM_PLANE_NODES(m) (3 * (m) / 2)
#define CICELYBEAM_PLANE_ENDS(m) ((m) / 2)
/* The segments of that cut, gathered: at most 3 * m / 2. */
#define CICELYBEAM_GATHER_NUMBERS(m) (6 * (m))
/* A space cell cut by a line. */
#define CICELYBEAM_LINE_NUMBERS(m) (14 * (m))
/* A plane cell of n corners cut by a line. */
#define CICELYBEAM_PLANE_CELL_NUMBERS(n) (6 * (n))
/* The stitching of s segments. */
#define CICELYBEAM_STITCH_NUMBERS(s) (4 * (s))
#define CICELYBEAM_STITCH_NODES(s) (s)
#define CICELYBEAM_STITCH_ENDS(s) ((s) / 3)

/* ---- Answers
 * A polygon (a face, a plane cell, or a loop that a line cuts) of three corners or more is clipped to the
 * side above the cut where a corner of it is above tol, else to the side below where one is below -tol, else
 * not at all. An edge of it from a to b, at distances da and db that are positive on that side, has a
 * crossing where one of them is at least -tol and the other is not. The crossing lies at t = da / (da - db)
 * of the way from a to b; and in the middle, t = 0.5, by default where da - db is NaN or no more than
 * 2^-1022 (DBL_MIN) in absolute value. `defaulted` is the number of crossings that lie in the middle by
 * default: of all that were computed, also where the point was then skipped. The faces of a cell are added
 * up, so an edge counts once for each of its faces. At most 256, and at most 640 for a line in space. */

/* A section: closed polygons of points in the cutting plane, and an account of every edge.
 *
 * Written: 2 * points to numbers, x and y of each point; nodes to nodes, the points of loop after loop,
 * counted from 0; loops to ends, the number of nodes up to and with each loop. Loop k has the nodes from
 * ends[k - 1] (0 for the first) up to but not with ends[k], at least three of them, each less than points.
 * They stand in the order walked, or all in reverse where the walk's rounded area is negative. So the area
 * of a loop is positive but for rounding: a very thin one can have a negative rounded area both ways. In the
 * usual way a loop may pass a point twice, and then a part of it may run clockwise.
 *
 * A listed edge joins two different points, and no two listed edges join the same two. One joins any two
 * cyclic neighbours in a loop, and none is used a second time in any loop.
 *
 * listed = in_loops + pinched + flat + open, always. Listed edges that do not close are counted as open,
 * and those that close without an area above the squared tolerance as flat. In the strict way those that
 * close and pass a point twice are counted as pinched, whatever their area, and in the usual way pinched is
 * 0. None of the three is drawn, so every listed edge is drawn exactly where all three are 0. A segment
 * whose ends are one point within the tolerance is no edge, one that repeats an edge adds none, and a corner
 * at a distance of NaN counts as outside.
 *
 * strict chooses the way: 0 is the usual one, anything else the strict one. In the strict way the nodes of
 * a loop are all different; its loops are the usual ones without those that pass a point twice, in the same
 * order, over the same points. Refusals, listed, open, defaulted and comparisons do not depend on it.
 *
 * defaulted is as above, and 0 of cicelybeam_stitch, which computes no crossing.
 *
 * comparisons is the number of comparisons of points while welding. Each end of a segment, in order, is compared
 * with the points so far, one after another, up to and with the first at a squared distance of at most tol * tol;
 * where there is none it has been compared with all of them, and becomes the next point. Of s segments it is
 * proved to be at most s * (2 * s - 1), so at most 294528. */
struct cicelybeam_section {
  uint32_t refusal;
  uint32_t points;
  uint32_t nodes;
  uint32_t loops;
  uint32_t listed;
  uint32_t in_loops;
  uint32_t pinched;
  uint32_t flat;
  uint32_t open;
  uint32_t defaulted;
  uint32_t comparisons;
};

/* Segments: the part of a line within a cell, or those that a plane cut gathers. Written to numbers: first
 * end, then second; six numbers a segment of a line in space, else four. No counts of edges and no comparisons
 * are told: what a line in space loses is said at cicelybeam_line_in_space, and stitching tells both of what is
 * gathered. defaulted is as above. */
struct cicelybeam_line {
  uint32_t refusal;
  uint32_t segments;
  uint32_t defaulted;
};

struct cicelybeam_tolerance {
  uint32_t refusal;
  double value;
};

/* ---- Functions
 * type, conn and coords are the cell: its type's number, its node numbers, and the coordinates of the
 * whole mesh in rows. tol is the distance up to which a point counts as on the plane, and two points
 * as one; usually the mesh's tolerance (below). Any number is taken; with less than the mesh's own, a
 * crossing that was rounded may not count as on the plane, and its edge is then not found. Vectors need
 * not be of length 1.
 *
 * scaled chooses how a normal is taken: 0 as it is given, anything else scaled. A normal as it is given is
 * made unit by its squares, as mefikit does it. They overflow where a component is beyond about 1e154 in
 * absolute value: the unit normal is then 0, and the section silently empty. They lose digits, or are all 0
 * and the normal is refused with 6, where all components are within about 1e-153. A normal that is scaled may
 * be of any length: it is first multiplied by the power of two that brings its greatest absolute component to
 * at least 1 and under 2, each component being the exact product rounded once. Its norm is then proved to be
 * from 1 to 4. A normal of zeros is not scaled and is refused with 6, and so is one with a component that is
 * NaN or infinite; no other is. Scale normals that were worked out, by a cross product or a division by a
 * determinant; take them as given to have what mefikit has. In every run both had the same unit normal where no
 * square overflows or underflows. Digits that a component lost by being below 2^-1022 do not come back.
 * Directions are not scaled. */

/* A space cell cut by the plane through origin with this normal, scaled unless scaled is 0, in the strict way
 * unless strict is 0. Points are given in the plane, from origin. Refuses 1 to 7. */
struct cicelybeam_section cicelybeam_plane(uint8_t type, const uint64_t *conn, size_t conn_len,
                                           const double *coords, size_t coords_len,
                                           const double *origin, size_t origin_len,
                                           const double *normal, size_t normal_len, uint8_t scaled,
                                           uint8_t strict, double tol, double *numbers,
                                           size_t numbers_len, uint32_t *nodes, size_t nodes_len,
                                           uint32_t *ends, size_t ends_len);

/* The segments that cicelybeam_plane stitches, before they are stitched: those of each face, faces in their
 * order, in the plane, from origin; four numbers a segment, at most 3 * m / 2 segments. cicelybeam_stitch of
 * these numbers with the same tol gives what cicelybeam_plane gives with the same scaled and strict, but for
 * defaulted, which is told here, where no call is refused. A face alone can be handed over as a PHED of one
 * face; a cell's segments are those of its faces, in their order, and its defaulted is their sum. Refuses 1 to
 * 7. */
struct cicelybeam_line cicelybeam_gather(uint8_t type, const uint64_t *conn, size_t conn_len,
                                         const double *coords, size_t coords_len,
                                         const double *origin, size_t origin_len,
                                         const double *normal, size_t normal_len, uint8_t scaled,
                                         double tol, double *numbers, size_t numbers_len);

/* A space cell cut by the line through origin with this direction: the cell is cut by a plane that holds
 * the line, in the usual way, and the line cuts the loops of that section. Flat and open pieces of the
 * section are dropped, and nothing tells of it; to know, cut the cell by a plane that holds the line.
 * defaulted has both: the crossings of that plane cut, and those made where the line cuts its loops. Refuses
 * 1 to 7. */
struct cicelybeam_line cicelybeam_line_in_space(uint8_t type, const uint64_t *conn, size_t conn_len,
                                                const double *coords, size_t coords_len,
                                                const double *origin, size_t origin_len,
                                                const double *direction, size_t direction_len,
                                                double tol, double *numbers, size_t numbers_len);

/* A plane cell cut by the line through origin with this normal, scaled unless scaled is 0. Refuses 1 to 7. */
struct cicelybeam_line cicelybeam_plane_cell_by_normal(uint8_t type, const uint64_t *conn,
                                                       size_t conn_len, const double *coords,
                                                       size_t coords_len, const double *origin,
                                                       size_t origin_len, const double *normal,
                                                       size_t normal_len, uint8_t scaled,
                                                       double tol, double *numbers,
                                                       size_t numbers_len);

/* A plane cell cut by the line through origin with this direction. Refuses 1 to 7. */
struct cicelybeam_line cicelybeam_plane_cell_by_direction(uint8_t type, const uint64_t *conn,
                                                          size_t conn_len, const double *coords,
                                                          size_t coords_len, const double *origin,
                                                          size_t origin_len, const double *direction,
                                                          size_t direction_len, double tol,
                                                          double *numbers, size_t numbers_len);

/* The polygons that segments in the plane form, four numbers a segment; in the strict way unless strict is
 * 0. Refuses 8 and 7. */
struct cicelybeam_section cicelybeam_stitch(const double *segments, size_t segments_len,
                                            uint8_t strict, double tol, double *numbers,
                                            size_t numbers_len, uint32_t *nodes, size_t nodes_len,
                                            uint32_t *ends, size_t ends_len);

/* The tolerance of a mesh with these coordinates, in rows of 3 or of 2: never NaN, never negative, and
 * 1e-12 for a mesh without nodes. NaN coordinates are passed over. Refuses 3. */
struct cicelybeam_tolerance cicelybeam_tolerance_in_space(const double *coords, size_t coords_len);
struct cicelybeam_tolerance cicelybeam_tolerance_in_plane(const double *coords, size_t coords_len);

/* The square root as IEEE 754 has it. */
double cicelybeam_sqrt(double x);

#ifdef __cplusplus
}
#endif

#endif
