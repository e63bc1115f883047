/* Prints the greatest stack that each function was seen to use, in bytes: each runs on a painted stack of its
 * own with a guard page below, on the inputs that ask the most of it. Arguments and the return address are
 * counted in. */
#define _GNU_SOURCE
#include "cicelybeam.h"
#include <stdio.h>
#include <string.h>
#include <sys/mman.h>
#include <ucontext.h>

#define PAGE 4096
#define STACK (1 << 20)
#define PAINT 0xa5
#define ENTRIES CICELYBEAM_MOST_ENTRIES
#define SEGMENTS CICELYBEAM_MOST_SEGMENTS

/* ---- Inputs; functions with a strict way are called in both, those that take a normal as it is given and scaled */

static const double up[] = {0, 0, 1};
static const double oblique[] = {0.3, 0.2, 1};
static const double origin[] = {0.1, 0.1, 0.1};

static uint8_t type;
static uint64_t conn[ENTRIES];
static size_t conn_len;
static double coords[3 * ENTRIES];
static size_t coords_len;
static const double *vector;
static uint8_t scaled, strict;
static double segments[4 * SEGMENTS];

static double numbers[CICELYBEAM_LINE_NUMBERS(ENTRIES)];
static uint32_t nodes[CICELYBEAM_PLANE_NODES(ENTRIES)];
static uint32_t ends[CICELYBEAM_PLANE_ENDS(ENTRIES)];

/* Points on a lattice, above and below in turn. */
static void fill_coords(size_t width) {
  for (size_t k = 0; k < ENTRIES; k++) {
    double *row = coords + width * k;
    row[0] = (double)(k % 16);
    row[1] = width == 3 ? (double)(k / 16) : (k % 2 ? 1 : -1);
    if (width == 3)
      row[2] = k % 2 ? 1 : -1;
  }
  coords_len = width * ENTRIES;
}

/* A cell whose nodes are rows in their order, every n-th entry a separator unless n is 0. */
static void fill_cell(uint8_t number, size_t length, size_t n) {
  type = number;
  conn_len = length;
  for (size_t k = 0; k < length; k++)
    conn[k] = n && k % n == n - 1 ? CICELYBEAM_FACE_END : k;
}

/* ---- The functions */

/* 0 as long as none of them refused. */
static uint32_t refusals;

static void run_nothing(void) {}

static void run_sqrt(void) { cicelybeam_sqrt(2); }

static void run_plane(void) {
  refusals |= cicelybeam_plane(type, conn, conn_len, coords, coords_len, origin, 3, vector, 3, scaled, strict, 1e-12,
                               numbers, sizeof numbers / sizeof *numbers, nodes, sizeof nodes / sizeof *nodes, ends,
                               sizeof ends / sizeof *ends).refusal;
}

static void run_gather(void) {
  refusals |= cicelybeam_gather(type, conn, conn_len, coords, coords_len, origin, 3, vector, 3, scaled, 1e-12, numbers,
                                sizeof numbers / sizeof *numbers).refusal;
}

static void run_line(void) {
  refusals |= cicelybeam_line_in_space(type, conn, conn_len, coords, coords_len, origin, 3, vector, 3, 1e-12, numbers,
                                       sizeof numbers / sizeof *numbers).refusal;
}

static void run_by_normal(void) {
  refusals |= cicelybeam_plane_cell_by_normal(type, conn, conn_len, coords, coords_len, origin, 2, up + 1, 2, scaled,
                                              1e-12, numbers, sizeof numbers / sizeof *numbers).refusal;
}

static void run_by_direction(void) {
  refusals |= cicelybeam_plane_cell_by_direction(type, conn, conn_len, coords, coords_len, origin, 2, up + 1, 2, 1e-12,
                                                 numbers, sizeof numbers / sizeof *numbers).refusal;
}

static void run_stitch(void) {
  refusals |= cicelybeam_stitch(segments, 4 * SEGMENTS, strict, 1e-12, numbers, sizeof numbers / sizeof *numbers,
                                nodes, sizeof nodes / sizeof *nodes, ends, sizeof ends / sizeof *ends).refusal;
}

static void run_tolerances(void) {
  refusals |= cicelybeam_tolerance_in_space(coords, coords_len - coords_len % 3).refusal;
  refusals |= cicelybeam_tolerance_in_plane(coords, coords_len - coords_len % 2).refusal;
}

/* ---- The measurement */

static unsigned char *stack;

/* The bytes between the top of the stack and the lowest one that is not as painted. */
static size_t depth(void (*run)(void)) {
  ucontext_t here, there;
  memset(stack, PAINT, STACK);
  getcontext(&there);
  there.uc_stack.ss_sp = stack;
  there.uc_stack.ss_size = STACK;
  there.uc_link = &here;
  makecontext(&there, run, 0);
  swapcontext(&here, &there);
  size_t low = 0;
  while (low < STACK && stack[low] == PAINT)
    low++;
  return STACK - low;
}

static size_t most(size_t a, size_t b) { return a > b ? a : b; }

/* The types of fixed shape, and polyhedra: one face, and faces of 4, 3 and 16 corners. */
static const struct cell {
  uint8_t number;
  size_t length, n;
} fixed[] = {{CICELYBEAM_TET4, 4, 0}, {CICELYBEAM_WEDGE15, 15, 0}, {CICELYBEAM_HEX21, 21, 0}},
  polyhedra[] = {{CICELYBEAM_PHED, 256, 0},
                 {CICELYBEAM_PHED, 256, 5},
                 {CICELYBEAM_PHED, 256, 4},
                 {CICELYBEAM_PHED, 256, 17}};

static size_t depth_in_space(void (*run)(void), const struct cell *cells, size_t many) {
  size_t found = 0;
  fill_coords(3);
  for (size_t k = 0; k < many; k++) {
    fill_cell(cells[k].number, cells[k].length, cells[k].n);
    vector = up;
    found = most(found, depth(run));
    vector = oblique;
    found = most(found, depth(run));
  }
  return found;
}

static size_t depth_in_plane(void (*run)(void)) {
  fill_coords(2);
  fill_cell(CICELYBEAM_QUAD9, 9, 0);
  size_t found = depth(run);
  fill_cell(CICELYBEAM_PGON, 256, 0);
  return most(found, depth(run));
}

/* A star of segments about one point, a ring, and segments apart. */
static size_t depth_of_stitching(void) {
  size_t found = 0;
  for (int shape = 0; shape < 3; shape++) {
    for (int k = 0; k < SEGMENTS; k++) {
      double *s = segments + 4 * k;
      double next = (double)((k + 1) % SEGMENTS);
      s[0] = shape == 0 ? 0 : k;
      s[1] = shape == 0 ? 0 : (double)k * k;
      s[2] = shape == 2 ? k + 0.5 : next;
      s[3] = shape == 2 ? k : next * next;
    }
    found = most(found, depth(run_stitch));
  }
  return found;
}

static size_t nothing;

static void print(const char *name, size_t found) { printf("%-40s %6zu\n", name, found - nothing); }

static void print_in_space(const char *name, void (*run)(void)) {
  print(name, depth_in_space(run, fixed, sizeof fixed / sizeof *fixed));
  print("  of a polyhedron", depth_in_space(run, polyhedra, sizeof polyhedra / sizeof *polyhedra));
}

int main(void) {
  unsigned char *pages = mmap(NULL, STACK + PAGE, PROT_READ | PROT_WRITE, MAP_PRIVATE | MAP_ANONYMOUS, -1, 0);
  if (pages == MAP_FAILED || mprotect(pages, PAGE, PROT_NONE) != 0)
    return 1;
  stack = pages + PAGE;
  nothing = depth(run_nothing);
  printf("bytes of stack at most\n");
  print_in_space("cicelybeam_plane", run_plane);
  strict = 1;
  print_in_space("cicelybeam_plane, strict", run_plane);
  strict = 0;
  scaled = 1;
  print_in_space("cicelybeam_plane, scaled", run_plane);
  scaled = 0;
  print_in_space("cicelybeam_gather", run_gather);
  scaled = 1;
  print_in_space("cicelybeam_gather, scaled", run_gather);
  scaled = 0;
  print_in_space("cicelybeam_line_in_space", run_line);
  print("cicelybeam_plane_cell_by_normal", depth_in_plane(run_by_normal));
  scaled = 1;
  print("cicelybeam_plane_cell_by_normal, scaled", depth_in_plane(run_by_normal));
  print("cicelybeam_plane_cell_by_direction", depth_in_plane(run_by_direction));
  print("cicelybeam_stitch", depth_of_stitching());
  strict = 1;
  print("cicelybeam_stitch, strict", depth_of_stitching());
  fill_coords(3);
  print("cicelybeam_tolerance_in_*", depth(run_tolerances));
  print("cicelybeam_sqrt", depth(run_sqrt));
  if (refusals != CICELYBEAM_ANSWERED)
    printf("something was refused, so these are not the greatest\n");
  return refusals != CICELYBEAM_ANSWERED;
}
