// Meshes of several shapes: large flat ones, a rolling ground, small triangles inside a cell, stairs, many floors.
#include "meshes.h"

#include <math.h>
#include <stdlib.h>

static const float CELL = 0.3f, HIGH = 0.2f;
enum { WALKABLE = 63 }; // the largest area that Recast has room for

// ---- building

static void corner(struct mesh *m, float x, float y, float z) {
  float *at = m->vertices + 3 * m->vertex_count++;
  at[0] = x, at[1] = y, at[2] = z;
}

static void face(struct mesh *m, uint32_t a, uint32_t b, uint32_t c) {
  uint32_t *at = m->indices + 3 * m->triangles;
  at[0] = a, at[1] = b, at[2] = c;
  // every sixteenth triangle is not walkable, so that the filters have something to decide
  m->areas[m->triangles] = m->triangles % 16 == 15 ? 0 : WALKABLE;
  m->triangles++;
}

// A grid of square cells with room for so many triangles.
static struct mesh empty(const char *name, uint32_t side, float top, uint32_t slots, size_t most) {
  struct mesh m = {.name = name, .width = side, .height = side, .slots = slots};
  float length = (float)side * CELL;
  float grid[8] = {0, 0, 0, length, top, length, CELL, HIGH};
  for (int i = 0; i < 8; i++) m.grid[i] = grid[i];
  m.vertices = malloc(9 * most * sizeof *m.vertices);
  m.indices = malloc(3 * most * sizeof *m.indices);
  m.areas = malloc(most);
  if (!m.vertices || !m.indices || !m.areas) abort();
  return m;
}

// A surface of squares, as many each way, over a part of the grid that starts at its corner; `height` gives y at x, z.
static void surface(struct mesh *m, int squares, float length, float (*height)(float, float, float), float level) {
  uint32_t first = m->vertex_count;
  for (int j = 0; j <= squares; j++)
    for (int i = 0; i <= squares; i++) {
      float x = length * i / squares, z = length * j / squares;
      corner(m, x, height(x, z, level), z);
    }
  for (int j = 0; j < squares; j++)
    for (int i = 0; i < squares; i++) {
      uint32_t a = first + j * (squares + 1) + i, b = a + squares + 1;
      face(m, a, b, a + 1);
      face(m, a + 1, b, b + 1);
    }
}

static float level_at(float x, float z, float level) {
  (void)x, (void)z;
  return level;
}

static float rolling_at(float x, float z, float level) { return level + 2.0f * sinf(0.11f * x) * cosf(0.07f * z); }

static void slab(struct mesh *m, float x, float y, float z, float wide, float deep) {
  uint32_t at = m->vertex_count;
  corner(m, x, y, z), corner(m, x, y, z + deep), corner(m, x + wide, y, z), corner(m, x + wide, y, z + deep);
  face(m, at, at + 1, at + 2);
  face(m, at + 2, at + 1, at + 3);
}

// ---- the shapes

static struct mesh flat(const char *name, uint32_t side, uint32_t slots) {
  struct mesh m = empty(name, side, 10, slots, 2);
  surface(&m, 1, (float)side * CELL, level_at, 1);
  return m;
}

// A rolling ground over most of the grid; with slabs above it if wanted.
static struct mesh rolling(const char *name, uint32_t side, int squares, int slabs, uint32_t slots) {
  struct mesh m = empty(name, side, 30, slots, 2 * (size_t)squares * squares + 2 * slabs * slabs);
  float length = 0.97f * (float)side * CELL;
  surface(&m, squares, length, rolling_at, 4);
  for (int j = 0; j < slabs; j++)
    for (int i = 0; i < slabs; i++) {
      float pitch = length / slabs;
      slab(&m, i * pitch, 9 + (i + j) % 4, j * pitch, 0.6f * pitch, 0.6f * pitch);
    }
  return m;
}

// Chance, the same at every run.
static float chance(void) {
  static uint32_t state = 1;
  state = state * 1664525u + 1013904223u;
  return (float)(state >> 8) / 16777216.0f;
}

// Triangles that lie inside a cell each.
static struct mesh small(const char *name, uint32_t side, size_t count, uint32_t slots) {
  struct mesh m = empty(name, side, 60, slots, count);
  for (size_t k = 0; k < count; k++) {
    float x = ((float)(uint32_t)(chance() * side) + 0.5f) * CELL, z = ((float)(uint32_t)(chance() * side) + 0.5f) * CELL;
    float y = 50 * chance(), reach = 0.4f * CELL;
    uint32_t at = m.vertex_count;
    corner(&m, x - reach, y, z - reach), corner(&m, x + reach, y + 0.1f, z - reach), corner(&m, x, y, z + reach);
    face(&m, at, at + 2, at + 1);
  }
  return m;
}

// Flights of stairs side by side, each step with its riser.
static struct mesh stairs(const char *name, uint32_t side, int flights, int steps, uint32_t slots) {
  struct mesh m = empty(name, side, 40, slots, 4 * (size_t)flights * steps);
  float length = (float)side * CELL, wide = length / flights, deep = length / steps, rise = 0.17f;
  for (int f = 0; f < flights; f++)
    for (int s = 0; s < steps; s++) {
      float x = f * wide, y = 1 + s * rise, z = s * deep;
      slab(&m, x, y, z, 0.95f * wide, deep);
      uint32_t at = m.vertex_count;
      corner(&m, x, y - rise, z), corner(&m, x, y, z), corner(&m, x + 0.95f * wide, y - rise, z);
      corner(&m, x + 0.95f * wide, y, z);
      face(&m, at, at + 1, at + 2);
      face(&m, at + 2, at + 1, at + 3);
    }
  return m;
}

// Many floors, one above the other.
static struct mesh floors(const char *name, uint32_t side, int count, int squares, uint32_t slots) {
  struct mesh m = empty(name, side, 4.0f * (float)count + 8, slots, 2 * (size_t)count * squares * squares);
  for (int k = 0; k < count; k++) surface(&m, squares, (float)side * CELL, rolling_at, 4 + 4.0f * (float)k);
  return m;
}

struct mesh make_mesh(int number) {
  switch (number) {
  case 0: return flat("flat 64", 64, 64 * 64);
  case 1: return flat("flat 128", 128, 128 * 128);
  case 2: return flat("flat 256", 256, 256 * 256);
  case 3: return flat("flat 512", 512, 512 * 512);
  case 4: return flat("flat 1024", 1024, 1024 * 1024);
  case 5: return flat("flat 256, 262144 slots", 256, 262144);
  case 6: return flat("flat 256, 1048576 slots", 256, 1048576);
  case 7: return rolling("rolling 64", 64, 16, 0, 2 * 64 * 64);
  case 8: return rolling("rolling 256", 256, 64, 0, 2 * 256 * 256);
  case 9: return rolling("rolling 512, slabs", 512, 128, 16, 2 * 512 * 512);
  case 10: return rolling("rolling 1024", 1024, 223, 0, 1048576);
  case 11: return small("small 100", 256, 100, 131072);
  case 12: return small("small 1000", 256, 1000, 131072);
  case 13: return small("small 10000", 256, 10000, 131072);
  case 14: return small("small 100000", 256, 100000, 131072);
  case 15: return stairs("stairs 256", 256, 8, 64, 2 * 256 * 256);
  case 16: return floors("floors 64 x 10", 64, 10, 8, 2 * 10 * 64 * 64);
  case 17: return floors("floors 64 x 30", 64, 30, 8, 2 * 30 * 64 * 64);
  default: return floors("floors 64 x 60", 64, 60, 8, 2 * 60 * 64 * 64); // more would pass the layers that links reach
  }
}

void drop_mesh(struct mesh *mesh) {
  free(mesh->vertices);
  free(mesh->indices);
  free(mesh->areas);
}
