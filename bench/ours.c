// Our library, through its C interface. All memory is lent once and touched before the clock starts.
#include "peer.h"

#include <stdio.h>
#include <stdlib.h>

#include "lichenvault.h"

enum { MOST = 1048576 };
static uint32_t heads[MOST], free_head, nexts[MOST], cell_indices[MOST], data[MOST];
static uint16_t floors[MOST], ceilings[MOST], ys[MOST];
static uint8_t areas[MOST], marks[MOST], cell_counts[MOST], span_areas[MOST];
static uint32_t said[4], columns;
static const struct mesh *m;

#define FIELD heads, columns, &free_head, floors, m->slots, ceilings, m->slots, areas, m->slots, nexts, m->slots
#define STORE FIELD, marks, m->slots
#define TRIANGLES m->vertices, 3 * m->vertex_count, m->indices, 3 * m->triangles, m->areas, m->triangles
#define RESULT cell_indices, columns, cell_counts, columns, ys, m->slots, data, m->slots, span_areas, m->slots

static void prepare(const struct mesh *mesh) {
  m = mesh;
  columns = m->width * m->height;
}

static void ready(enum stage stage) { (void)stage; }

static uint32_t call(enum stage stage) {
  switch (stage) {
  case FRESH: return lv_fresh(m->grid, said, FIELD);
  case MESH: return lv_rasterize_triangles(m->grid, said, STORE, TRIANGLES, CLIMB);
  case LOW: return lv_filter_low_hanging_walkable_obstacles(m->grid, said, STORE, CLIMB);
  case LEDGES: return lv_filter_ledge_spans(m->grid, said, STORE, WALKABLE_HEIGHT, CLIMB);
  case CEILINGS: return lv_filter_walkable_low_height_spans(m->grid, said, STORE, WALKABLE_HEIGHT);
  case COMPACT: return lv_into_compact(m->grid, said, STORE, RESULT, WALKABLE_HEIGHT, CLIMB);
  case POPULATE: return lv_populate_from_trimesh(m->grid, said, STORE, TRIANGLES, WALKABLE_HEIGHT, CLIMB);
  default: return lv_add_span(m->grid, said, STORE, m->width, 0, 0, 1, 1, 0);
  }
}

static void stage(enum stage stage) {
  uint32_t wanted = stage == AFTER_FRESH || stage == AFTER_MESH ? 8 : 0, reply = call(stage);
  if (reply == wanted) return;
  fprintf(stderr, "bench: %s: ours gave reply %u (%u %u) at stage %d\n", m->name, reply, said[0], said[1], stage);
  exit(1);
}

static uint64_t finish(void) {
  uint64_t sum = 1;
  uint32_t total = 0;
  for (uint32_t i = 0; i < columns; i++) {
    sum = sum_with(sum, cell_counts[i]);
    total += cell_counts[i];
  }
  for (uint32_t i = 0; i < total; i++) sum = sum_with(sum_with(sum_with(sum, ys[i]), data[i]), span_areas[i]);
  return sum;
}

const struct peer ours = {"ours", prepare, ready, stage, finish};
