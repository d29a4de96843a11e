/*
 * Lichenvault: the floor map of a walking robot, for C.
 *
 * Triangles or single spans go into a field of columns, filters clear what cannot be walked on, and the
 * rest becomes compact cells with links. Every function here is proved to do what its text says, for
 * any grid, any mesh and any contents of the buffers, so nothing has to be checked before a call.
 *
 * What is yours to ensure, since no function can see it: every pointer leads to as many entries as its
 * count says, is not null (not even where the count is 0) and is aligned for its type, and the buffers
 * of one call do not overlap. No function keeps a pointer, allocates, or calls anything of yours.
 *
 * Link with libc_api.a, which `rt staticlib c_api` writes.
 */
#ifndef LICHENVAULT_H
#define LICHENVAULT_H

#include <stddef.h>
#include <stdint.h>

#ifdef __cplusplus
extern "C" {
#endif

/* ---- replies -------------------------------------------------------------------------------------- */

/*
 * Every call that takes a grid returns the number of its reply, and writes what the reply carries into
 * `said`. All four entries of `said` are written by every such call; those not named here become 0. A
 * float is written by its bits: copy the word into a float to read it. A NaN is written as 0x7fc00000.
 *
 * Unless it says otherwise, a reply other than 0 leaves every buffer but `said` as it was. The marks
 * are the exception: see "The field".
 */
enum lv_reply {
    /* Accepted. From lv_into_compact: said[0] is the greatest y of the result's box, as a float. */
    LV_ACCEPTED = 0,
    /* A float of the grid or a vertex is outside its limits: said[0] is that float. */
    LV_BAD_NUMBER = 1,
    /* The box's least corner is above its greatest on some axis. */
    LV_BOX_ORDER = 2,
    /* The grid has too few or too many cells: said[0] is its width and said[1] its height, as floats
       with 0.5 added, not yet truncated. */
    LV_GRID_SIZE = 3,
    /* A buffer is too short for the grid, the slots' buffers differ in length, or a mesh has a number
       of vertex floats, indices or areas that does not fit the others. */
    LV_SLICES = 4,
    /* The span shares no height with its column and no slot is free. From a mesh: said[0] is the
       triangle, from 0, and said[1] how many of its spans were inserted; all that was inserted
       before the stop stays in the field. */
    LV_NO_SLOT = 5,
    /* A cut of a triangle would have an eighth vertex: as 5 from a mesh. */
    LV_EIGHTH_VERTEX = 6,
    /* A triangle reaches a floor of 65,535: as 5 from a mesh. */
    LV_TOO_HIGH = 7,
    /* x is not below the width, or z is not below the height. */
    LV_OFF_GRID = 8,
    /* The span's floor is above its ceiling. */
    LV_INVERTED = 9,
    /* An index of the mesh names no vertex. */
    LV_NO_VERTEX = 10,
    /* Some column has more than 255 walkable spans. */
    LV_CROWDED = 11,
    /* The compact result is whole, but some link would lead to a layer of 63 or more and was left empty:
       said[0] is the largest such layer, said[1] the greatest y of the result's box, as a float. */
    LV_LAYERS = 12,
    /* A direction above 3, or a layer above 62. Only from the calls on a data word, which have no `said`. */
    LV_BAD_LINK = 13,
    /* The buffers hold no sound field. */
    LV_UNSOUND = 14,
    /* A buffer for compact spans is shorter than the number of walkable spans. */
    LV_SPANS_SHORT = 15
};

/* ---- the grid ------------------------------------------------------------------------------------- */

/*
 * A grid is eight floats: least x, y, z, greatest x, y, z, cell size, cell height. Coordinates are
 * from -262,144 to 262,144, cell size and cell height from 1/1024 to 1024. The width in cells is
 * (greatest x - least x) / cell size + 0.5, truncated; the height in cells is the same along z. Each is
 * from 1 to 4,096, and there are at most 1,048,576 columns. Column (x, z) has the number x + z * width.
 *
 * Every call that takes a grid tests it first: 1 over the floats in their order, then 2, then 3. Then
 * come 4 and (except in lv_fresh) 14, and last the replies that are listed with the call, in that order.
 * The first test that fails gives the reply.
 */

/* ---- the field ------------------------------------------------------------------------------------ */

/*
 * A field is held in buffers of yours:
 *
 *   heads      one for each column (more may be lent; those past the columns are never touched): the
 *              column's lowest slot
 *   free_slot  the first free slot
 *   floors, ceilings, areas, nexts
 *              one for each slot, all of one length, from 1 to 1,048,576: a span, and the slot above it
 *              in its column, or the next free slot
 *   marks      one for each slot, scratch room for the test of the field. What it holds before a call
 *              does not matter. A call that gets past reply 4 leaves it all 0, whatever it answers,
 *              and one that is refused earlier leaves it as it was.
 *
 * LV_NONE stands for no slot. A span goes from its floor to its ceiling, both from 0 to 65,535, in units of
 * the cell height above the box's least y; area 0 is not walkable.
 *
 * The field is sound when no slot is lost or shared, each being in one column or among the free ones, and
 * every column goes up: floor <= ceiling < next floor. Calls keep it so. A field that is not sound, however
 * it came to that, is refused with 14.
 */
#define LV_NONE UINT32_C(4294967295)

/*
 * Makes a fresh field: every column empty, every slot free in the order of its number, every floor,
 * ceiling and area 0. What the buffers held does not matter. Replies: 0, 1, 2, 3, 4.
 */
uint32_t lv_fresh(const float grid[8], uint32_t said[4],
                  uint32_t *heads, size_t heads_count, uint32_t *free_slot,
                  uint16_t *floors, size_t floors_count,
                  uint16_t *ceilings, size_t ceilings_count,
                  uint8_t *areas, size_t areas_count,
                  uint32_t *nexts, size_t nexts_count);

/*
 * Offers one span to the column at (x, z). The spans of the column that share a height with it are
 * merged into it, and their slots are free again. Where its ceiling, grown by the merge so far, is at
 * most `threshold` above a merged span's ceiling, it takes the larger area of the two; else it keeps its own.
 * Replies: 0, 1, 2, 3, 4, 14, 8, 9, 5.
 */
uint32_t lv_add_span(const float grid[8], uint32_t said[4],
                     uint32_t *heads, size_t heads_count, uint32_t *free_slot,
                     uint16_t *floors, size_t floors_count,
                     uint16_t *ceilings, size_t ceilings_count,
                     uint8_t *areas, size_t areas_count,
                     uint32_t *nexts, size_t nexts_count,
                     uint8_t *marks, size_t marks_count,
                     uint32_t x, uint32_t z,
                     uint16_t floor, uint16_t ceiling, uint8_t area, uint16_t threshold);

/* ---- meshes --------------------------------------------------------------------------------------- */

/*
 * A mesh is three floats x, y, z for each vertex, three vertex numbers for each triangle and an area for
 * each triangle, so `vertices_count` is a multiple of three, `indices_count` is three times
 * `triangle_areas_count`, and there are at most 16,777,216 triangles (else 4). Every float of `vertices`
 * is tested, used or not (1), and every index (10), before anything is inserted.
 *
 * Every triangle is cut along the cells' edges, and its part in a cell is offered as a span to that column,
 * as lv_add_span does. A mesh that is stopped by 5, 6 or 7 leaves exactly the spans inserted before the
 * stop, and `said` names the place.
 */

/* All triangles of a mesh, in their order. Replies: 0, 1, 2, 3, 4, 14, 10, 1 (a vertex), then 5, 6 or 7. */
uint32_t lv_rasterize_triangles(const float grid[8], uint32_t said[4],
                                uint32_t *heads, size_t heads_count, uint32_t *free_slot,
                                uint16_t *floors, size_t floors_count,
                                uint16_t *ceilings, size_t ceilings_count,
                                uint8_t *areas, size_t areas_count,
                                uint32_t *nexts, size_t nexts_count,
                                uint8_t *marks, size_t marks_count,
                                const float *vertices, size_t vertices_count,
                                const uint32_t *indices, size_t indices_count,
                                const uint8_t *triangle_areas, size_t triangle_areas_count,
                                uint16_t threshold);

/* A mesh of one triangle, by its three corners: x, y, z of each. Replies: as above, but never 10. */
uint32_t lv_rasterize_triangle(const float grid[8], uint32_t said[4],
                               uint32_t *heads, size_t heads_count, uint32_t *free_slot,
                               uint16_t *floors, size_t floors_count,
                               uint16_t *ceilings, size_t ceilings_count,
                               uint8_t *areas, size_t areas_count,
                               uint32_t *nexts, size_t nexts_count,
                               uint8_t *marks, size_t marks_count,
                               const float corners[9], uint8_t area, uint16_t threshold);

/*
 * A mesh with `climb` as the threshold, and then the three filters below in their order. A mesh that is
 * refused or stopped is not filtered. Replies: those of lv_rasterize_triangles.
 */
uint32_t lv_populate_from_trimesh(const float grid[8], uint32_t said[4],
                                  uint32_t *heads, size_t heads_count, uint32_t *free_slot,
                                  uint16_t *floors, size_t floors_count,
                                  uint16_t *ceilings, size_t ceilings_count,
                                  uint8_t *areas, size_t areas_count,
                                  uint32_t *nexts, size_t nexts_count,
                                  uint8_t *marks, size_t marks_count,
                                  const float *vertices, size_t vertices_count,
                                  const uint32_t *indices, size_t indices_count,
                                  const uint8_t *triangle_areas, size_t triangle_areas_count,
                                  uint16_t walkable_height, uint16_t climb);

/* ---- filters -------------------------------------------------------------------------------------- */

/*
 * The filters change areas of spans in columns, and nothing else but the marks. Each looks at the field as
 * it was before the filter. They are meant to run in this order. `climb` and `walkable_height` are in units
 * of the cell height. Replies of each: 0, 1, 2, 3, 4, 14.
 */

/* A span that is not walkable takes the area of the span just below it, if that one is walkable and
   their ceilings differ by at most `climb`. */
uint32_t lv_filter_low_hanging_walkable_obstacles(
    const float grid[8], uint32_t said[4],
    const uint32_t *heads, size_t heads_count, const uint32_t *free_slot,
    const uint16_t *floors, size_t floors_count,
    const uint16_t *ceilings, size_t ceilings_count,
    uint8_t *areas, size_t areas_count,
    const uint32_t *nexts, size_t nexts_count,
    uint8_t *marks, size_t marks_count,
    uint16_t climb);

/*
 * Clears ledges. Of a walkable span let F be the ceiling and C the next floor in its column, or 65,535. It
 * gets area 0 if any of these holds:
 *   - one of the four neighbour columns is off the grid;
 *   - in a neighbour column, the lowest floor (65,535 if it is empty) or C, whichever is less, is at least
 *     walkable_height above F;
 *   - a neighbour column has a span with room to pass, whose ceiling is more than `climb` below F;
 *   - F and the ceilings of the neighbours' spans with room to pass that are at most `climb` away from F
 *     differ by more than `climb` from the least to the greatest.
 * A neighbour's span with ceiling n and c the floor above it, or 65,535, has room to pass where
 * min(C, c) - max(F, n) is at least walkable_height.
 */
uint32_t lv_filter_ledge_spans(
    const float grid[8], uint32_t said[4],
    const uint32_t *heads, size_t heads_count, const uint32_t *free_slot,
    const uint16_t *floors, size_t floors_count,
    const uint16_t *ceilings, size_t ceilings_count,
    uint8_t *areas, size_t areas_count,
    const uint32_t *nexts, size_t nexts_count,
    uint8_t *marks, size_t marks_count,
    uint16_t walkable_height, uint16_t climb);

/* A span with less than `walkable_height` between its ceiling and the next floor, or 65,535, gets area 0. */
uint32_t lv_filter_walkable_low_height_spans(
    const float grid[8], uint32_t said[4],
    const uint32_t *heads, size_t heads_count, const uint32_t *free_slot,
    const uint16_t *floors, size_t floors_count,
    const uint16_t *ceilings, size_t ceilings_count,
    uint8_t *areas, size_t areas_count,
    const uint32_t *nexts, size_t nexts_count,
    uint8_t *marks, size_t marks_count,
    uint16_t walkable_height);

/* ---- the compact result --------------------------------------------------------------------------- */

/*
 * Lists the open space above every walkable span, column by column (x fastest), from the lowest up. The
 * field is only read, but for the marks. Column c's spaces have the numbers
 * cell_indices[c] .. cell_indices[c] + cell_counts[c] - 1; both are 0 where it has none. Of space i,
 *
 *   ys[i]          is where it starts: the ceiling of the span below it
 *   data[i]        packs its height (at most 255) and its four links, see below
 *   span_areas[i]  is that span's area
 *
 * There must be a cell index and a cell count for each column (4), and room for all spaces in the other
 * three (15). Entries past the last column and past the last space are not touched. At 0 and 12 the
 * result is whole; at every other reply it is as it was.
 * Replies: 0, 1, 2, 3, 4, 14, 11, 15, 12. The greatest y that 0 and 12 carry is the box's, plus
 * walkable_height times the cell height; later calls still take the grid as it is.
 */
uint32_t lv_into_compact(
    const float grid[8], uint32_t said[4],
    const uint32_t *heads, size_t heads_count, const uint32_t *free_slot,
    const uint16_t *floors, size_t floors_count,
    const uint16_t *ceilings, size_t ceilings_count,
    const uint8_t *areas, size_t areas_count,
    const uint32_t *nexts, size_t nexts_count,
    uint8_t *marks, size_t marks_count,
    uint32_t *cell_indices, size_t cell_indices_count,
    uint8_t *cell_counts, size_t cell_counts_count,
    uint16_t *ys, size_t ys_count,
    uint32_t *data, size_t data_count,
    uint8_t *span_areas, size_t span_areas_count,
    uint16_t walkable_height, uint16_t climb);

/* ---- the data word -------------------------------------------------------------------------------- */

/*
 * Four links of six bits, direction 0 lowest, and the height in the top eight bits. Directions 0, 1, 2, 3
 * step by (-1,0), (0,1), (1,0), (0,-1) in (x, z). A link is the layer that it leads to, counted from 0
 * within the neighbour column, or LV_NOT_CONNECTED.
 */
#define LV_NOT_CONNECTED 63

/* Links a direction to a layer from 0 to 62. Returns 0, or 13 with the word as it was. */
uint32_t lv_set_con(uint32_t *data, uint8_t dir, uint8_t layer);

/* Empties the link of a direction. Returns 0, or 13 with the word as it was. */
uint32_t lv_clear_con(uint32_t *data, uint8_t dir);

/* Writes the link of a direction to `link`. Returns 0, or 13 with `link` as it was. */
uint32_t lv_con(uint32_t data, uint8_t dir, uint32_t *link);

/* The word with another height, and its links kept. */
uint32_t lv_set_height(uint32_t data, uint8_t height);

/* The height of the open space. */
uint8_t lv_height(uint32_t data);

/* ---- floats to whole numbers ---------------------------------------------------------------------- */

/* Toward zero, down, and up. A NaN gives 0, and what is outside int32_t the nearest end of its range. */
int32_t lv_truncate(float x);
int32_t lv_floor(float x);
int32_t lv_ceil(float x);

#ifdef __cplusplus
}
#endif

#endif
