// What the bench asks of each library that it times: ours, the Rust original, C++ Recast.
#ifndef PEER_H
#define PEER_H

#include <stddef.h>
#include <stdint.h>

#ifdef __cplusplus
extern "C" {
#endif

// The settings are the same for all: in cells of height.
enum { WALKABLE_HEIGHT = 10, CLIMB = 4 };

// POPULATE is MESH and the three filters in one call; it follows FRESH. AFTER_FRESH and AFTER_MESH are calls of ours that
// are refused right after the test of soundness, on an empty and on a filled field; the others do nothing there.
enum stage { FRESH, AFTER_FRESH, MESH, AFTER_MESH, LOW, LEDGES, CEILINGS, COMPACT, POPULATE, STAGES };

struct mesh {
  const char *name;
  float grid[8];
  uint32_t width, height; // in cells
  uint32_t slots;         // lent to ours
  float *vertices;        // three numbers each
  size_t vertex_count;
  uint32_t *indices; // three each
  uint8_t *areas;
  size_t triangles;
};

struct peer {
  const char *name;
  void (*prepare)(const struct mesh *); // takes the mesh in the peer's own form; not timed
  void (*ready)(enum stage);            // before each stage; not timed
  void (*stage)(enum stage);            // timed
  uint64_t (*finish)(void);             // a sum over the compact result, or 0 if there is none; gives everything back
};

extern const struct peer ours, recast, rust;

// The sum that all must agree on: of each cell its count, of each compact span its y, its word and its area.
static inline uint64_t sum_with(uint64_t sum, uint32_t number) { return (sum ^ number) * 1099511628211u; }

#ifdef __cplusplus
}
#endif
#endif
