// C++ Recast 1.6.0. Its filter for ledges asks for more room than the walkable height where ours asks for as much, so it
// is told one less; then the results agree.
#include <cstdio>
#include <cstdlib>
#include <vector>

#include "Recast.h"
#include "peer.h"

static rcContext context(false);
static const struct mesh *m;
static std::vector<int> indices;
static rcHeightfield *field;
static rcCompactHeightfield *compact;

static void prepare(const struct mesh *mesh) {
  m = mesh;
  indices.assign(m->indices, m->indices + 3 * m->triangles);
}

static void ready(enum stage) {}

static bool fresh() {
  field = rcAllocHeightfield();
  return rcCreateHeightfield(&context, *field, m->width, m->height, m->grid, m->grid + 3, m->grid[6], m->grid[7]);
}

static bool mesh_in() {
  return rcRasterizeTriangles(&context, m->vertices, m->vertex_count, indices.data(), m->areas, m->triangles, *field, CLIMB);
}

static bool filters() {
  rcFilterLowHangingWalkableObstacles(&context, CLIMB, *field);
  rcFilterLedgeSpans(&context, WALKABLE_HEIGHT - 1, CLIMB, *field);
  rcFilterWalkableLowHeightSpans(&context, WALKABLE_HEIGHT, *field);
  return true;
}

static bool pack() {
  compact = rcAllocCompactHeightfield();
  return rcBuildCompactHeightfield(&context, WALKABLE_HEIGHT, CLIMB, *field, *compact);
}

static void stage(enum stage stage) {
  bool done = true;
  switch (stage) {
  case FRESH: done = fresh(); break;
  case MESH: done = mesh_in(); break;
  case LOW: rcFilterLowHangingWalkableObstacles(&context, CLIMB, *field); break;
  case LEDGES: rcFilterLedgeSpans(&context, WALKABLE_HEIGHT - 1, CLIMB, *field); break;
  case CEILINGS: rcFilterWalkableLowHeightSpans(&context, WALKABLE_HEIGHT, *field); break;
  case COMPACT: done = pack(); break;
  case POPULATE: done = mesh_in() && filters(); break;
  default: break;
  }
  if (done) return;
  fprintf(stderr, "bench: %s: Recast failed at stage %d\n", m->name, stage);
  exit(1);
}

static uint64_t finish() {
  uint64_t sum = compact ? 1 : 0;
  if (compact) {
    for (uint32_t i = 0; i < m->width * m->height; i++) sum = sum_with(sum, compact->cells[i].count);
    for (int i = 0; i < compact->spanCount; i++) {
      const rcCompactSpan &span = compact->spans[i];
      sum = sum_with(sum_with(sum_with(sum, span.y), span.con | (uint32_t)span.h << 24), compact->areas[i]);
    }
  }
  rcFreeCompactHeightfield(compact);
  rcFreeHeightField(field);
  compact = nullptr;
  field = nullptr;
  return sum;
}

extern "C" const struct peer recast = {"recast", prepare, ready, stage, finish};
