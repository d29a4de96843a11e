// The Rust original, through the few functions of rust/lib.rs.
#include "peer.h"

void rust_prepare(const float *grid, const float *vertices, size_t vertex_count, const uint32_t *indices,
                  const uint8_t *areas, size_t triangles);
void rust_ready(uint32_t stage);
void rust_stage(uint32_t stage, uint16_t walkable_height, uint16_t climb);
uint64_t rust_finish(void);

static void prepare(const struct mesh *m) {
  rust_prepare(m->grid, m->vertices, m->vertex_count, m->indices, m->areas, m->triangles);
}

static void ready(enum stage stage) { rust_ready(stage); }

static void stage(enum stage stage) { rust_stage(stage, WALKABLE_HEIGHT, CLIMB); }

const struct peer rust = {"rust", prepare, ready, stage, rust_finish};
