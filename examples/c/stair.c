/*
 * A stair from a yard up to a landing that one can also walk under. A mesh and two single spans go in, the filters
 * clear what cannot be walked on, and the links of the compact result show the way up. Last come refusals.
 */
#include <stdio.h>
#include <string.h>

#include "lichenvault.h"

enum { WIDE = 20, DEEP = 9, COLUMNS = WIDE * DEEP, SLOTS = 400, SPACES = 400 };

/* In units of an eighth of a metre: a step is 2 high, the robot climbs 4, and needs 14 above it. */
enum { STEPS = 8, STEP = 2, CLIMB = 4, WALKABLE_HEIGHT = 14 };

/* least x, y, z, greatest x, y, z, cell size, cell height, in metres */
#define CELL 0.25f
#define UNIT 0.125f
static const float grid[8] = {0, 0, 0, WIDE * CELL, 8, DEEP * CELL, CELL, UNIT};
static uint32_t said[4];

/* the mesh: flat rectangles of two triangles each */
enum { RECTANGLES = STEPS + 2, STONE = 1 };
static float vertices[RECTANGLES * 12];
static uint32_t indices[RECTANGLES * 6];
static uint8_t triangle_areas[RECTANGLES * 2];
#define MESH vertices, RECTANGLES * 12, indices, RECTANGLES * 6, triangle_areas, RECTANGLES * 2

/* the field */
static uint32_t heads[COLUMNS], free_slot, nexts[SLOTS];
static uint16_t floors[SLOTS], ceilings[SLOTS];
static uint8_t areas[SLOTS], marks[SLOTS];
#define FIELD(slots) heads, COLUMNS, &free_slot, floors, slots, ceilings, slots, areas, slots, nexts, slots

/* the compact result */
static uint32_t cell_indices[COLUMNS], data[SPACES];
static uint8_t cell_counts[COLUMNS], span_areas[SPACES];
static uint16_t ys[SPACES];
#define RESULT cell_indices, COLUMNS, cell_counts, COLUMNS, ys, SPACES, data, SPACES, span_areas, SPACES

static float as_float(uint32_t bits) {
    float x;
    memcpy(&x, &bits, sizeof x);
    return x;
}

static void tell(const char *call, uint32_t reply) {
    printf("%s: reply %u\n", call, (unsigned)reply);
}

/* Rectangle n, at a height, over the columns from (x0, z0) up to (x1, z1). */
static void lay(int n, int x0, int z0, int x1, int z1, int height) {
    const int xs[4] = {x0, x0, x1, x1}, zs[4] = {z0, z1, z1, z0};
    const uint32_t corners[6] = {0, 1, 2, 0, 2, 3};
    for (int k = 0; k < 4; k++) {
        float *v = vertices + (n * 4 + k) * 3;
        v[0] = (float)xs[k] * CELL;
        v[1] = (float)height * UNIT;
        v[2] = (float)zs[k] * CELL;
    }
    for (int k = 0; k < 6; k++) indices[n * 6 + k] = (uint32_t)n * 4 + corners[k];
    triangle_areas[n * 2] = triangle_areas[n * 2 + 1] = STONE;
}

static void lay_all(void) {
    lay(0, 0, 0, WIDE, DEEP, 0); /* the yard */
    for (int n = 1; n <= STEPS; n++) lay(n, 4 + n, 2, 5 + n, 7, STEP * n);
    lay(STEPS + 1, 5 + STEPS, 2, WIDE, 7, STEP * (STEPS + 1)); /* the landing */
}

/* What a height looks like on the map: 0 to 9, then letters. */
static char shown(unsigned y) {
    return y < 10 ? (char)('0' + y) : (char)('a' + (y - 10));
}

/* From above: the ceiling of each column's highest walkable span, or a dot. */
static void print_field(const char *title, int wide, int deep) {
    printf("%s\n", title);
    for (int z = 0; z < deep; z++) {
        printf("  ");
        for (int x = 0; x < wide; x++) {
            char c = '.';
            for (uint32_t s = heads[x + z * wide]; s != LV_NONE; s = nexts[s])
                if (areas[s] != 0) c = shown(ceilings[s]);
            putchar(c);
        }
        putchar('\n');
    }
}

/* One row of the compact result, with the layer that each link leads to. */
static void print_links(int z) {
    printf("links along z = %d (layer in the column at x-1, z+1, x+1, z-1)\n", z);
    for (int x = 0; x < WIDE; x++) {
        int c = x + z * WIDE;
        for (uint32_t i = cell_indices[c]; i < cell_indices[c] + cell_counts[c]; i++) {
            printf("  x %2d  y %2u  height %3u ", x, (unsigned)ys[i], (unsigned)lv_height(data[i]));
            for (uint8_t dir = 0; dir < 4; dir++) {
                uint32_t link = 0;
                if (lv_con(data[i], dir, &link) != LV_ACCEPTED) return;
                if (link == LV_NOT_CONNECTED)
                    printf("  -");
                else
                    printf(" %2u", (unsigned)link);
            }
            putchar('\n');
        }
    }
}

/* The map, step by step. */
static int build(void) {
    uint32_t reply = lv_fresh(grid, said, FIELD(SLOTS));
    tell("fresh", reply);
    if (reply != LV_ACCEPTED) return 1;

    reply = lv_rasterize_triangles(grid, said, FIELD(SLOTS), marks, SLOTS, MESH, CLIMB);
    tell("mesh", reply);
    if (reply != LV_ACCEPTED) return 1;
    /* a box on the landing, low enough to climb, and a beam over the yard */
    tell("box", lv_add_span(grid, said, FIELD(SLOTS), marks, SLOTS, 16, 3, 20, 21, 0, CLIMB));
    tell("beam", lv_add_span(grid, said, FIELD(SLOTS), marks, SLOTS, 2, 4, 8, 9, 0, CLIMB));
    print_field("before the filters", WIDE, DEEP);

    tell("low obstacles",
         lv_filter_low_hanging_walkable_obstacles(grid, said, FIELD(SLOTS), marks, SLOTS, CLIMB));
    tell("ledges", lv_filter_ledge_spans(grid, said, FIELD(SLOTS), marks, SLOTS, WALKABLE_HEIGHT, CLIMB));
    tell("low ceilings",
         lv_filter_walkable_low_height_spans(grid, said, FIELD(SLOTS), marks, SLOTS, WALKABLE_HEIGHT));
    print_field("after the filters", WIDE, DEEP);

    reply = lv_into_compact(grid, said, FIELD(SLOTS), marks, SLOTS, RESULT, WALKABLE_HEIGHT, CLIMB);
    tell("compact", reply);
    if (reply != LV_ACCEPTED) return 1;
    printf("the result's box ends at y = %g\n", as_float(said[0]));
    print_links(4);
    return 0;
}

/* The mesh and the filters in one call. */
static void populate(void) {
    tell("fresh", lv_fresh(grid, said, FIELD(SLOTS)));
    tell("populate",
         lv_populate_from_trimesh(grid, said, FIELD(SLOTS), marks, SLOTS, MESH, WALKABLE_HEIGHT, CLIMB));
    print_field("without box and beam", WIDE, DEEP);
}

/* What refusals look like, and what they leave. */
static void refuse(void) {
    float bad[8];
    const uint32_t nan_bits = UINT32_C(0xffc01234);
    memcpy(bad, grid, sizeof bad);
    memcpy(&bad[4], &nan_bits, sizeof nan_bits);
    uint32_t reply = lv_fresh(bad, said, FIELD(SLOTS));
    printf("a NaN in the grid: reply %u, said %08x %08x %08x %08x\n", (unsigned)reply, (unsigned)said[0],
           (unsigned)said[1], (unsigned)said[2], (unsigned)said[3]);

    tell("fresh, 203 slots", lv_fresh(grid, said, FIELD(203)));
    reply = lv_rasterize_triangles(grid, said, FIELD(203), marks, 203, MESH, CLIMB);
    printf("a store too small: reply %u at triangle %u, after %u of its spans\n", (unsigned)reply,
           (unsigned)said[0], (unsigned)said[1]);
    print_field("what stays of it", WIDE, DEEP);

    /* on a small grid, a triangle that is left of column (0,0) where that column lies */
    const float small[8] = {0, 0, 0, 4, 8, 4, 1, 1};
    const float sliver[9] = {-2, 1, 0.5f, -0.5f, 1, 0.5f, 1.5f, 1, 4.5f};
    tell("fresh, 4 x 4", lv_fresh(small, said, FIELD(SLOTS)));
    tell("a triangle from the left",
         lv_rasterize_triangle(small, said, FIELD(SLOTS), marks, SLOTS, sliver, STONE, 0));
    print_field("what it leaves", 4, 4);
    nexts[7] = 3; /* two slots lead to one */
    tell("a damaged field",
         lv_filter_low_hanging_walkable_obstacles(small, said, FIELD(SLOTS), marks, SLOTS, CLIMB));
    tell("direction 4", lv_set_con(&data[0], 4, 0));
}

/* A data word by hand, and floats to whole numbers. */
static void pack(void) {
    uint32_t word = UINT32_MAX; /* height 255, no links */
    word = lv_set_height(word, 200);
    tell("west to layer 3", lv_set_con(&word, 0, 3));
    tell("east to layer 0", lv_set_con(&word, 2, 0));
    tell("south to layer 62", lv_set_con(&word, 3, 62));
    tell("south to layer 63", lv_set_con(&word, 3, 63));
    tell("east emptied", lv_clear_con(&word, 2));
    printf("the word: %08x\n", (unsigned)word);
    printf("truncate -0.75: %d, floor -0.25: %d, ceil 0.25: %d, floor of 3e9: %d\n", (int)lv_truncate(-0.75f),
           (int)lv_floor(-0.25f), (int)lv_ceil(0.25f), (int)lv_floor(3e9f));
}

int main(void) {
    lay_all();
    if (build() != 0) return 1;
    populate();
    refuse();
    pack();
    return 0;
}
