// Reads calls on standard input, makes them on our library through its C interface and writes the answers. Cases and
// answers are described in oracle/README.md. Beside the answers it looks after every call whether the marks are as the
// rules say and whether anything was written past what was lent; if not, it stops with status 3.
#include <stdbool.h>
#include <stdint.h>
#include <stdio.h>
#include <stdlib.h>
#include <string.h>

#include "lichenvault.h"

enum { MOST = 1048576, SPARE = 8, MOST_WORDS = 10, MOST_NUMBERS = 1 << 20 };
static const uint32_t NONE = 4294967295u;
static const uint8_t GUARD = 0xa5; // fills what no call may write, and the marks before a call

// ---- what is lent

static float grid[8];
static uint32_t columns, slots, spans; // how much of each is lent
static uint32_t heads[MOST + SPARE], free_head, nexts[MOST + SPARE];
static uint16_t floors[MOST + SPARE], ceilings[MOST + SPARE];
static uint8_t areas[MOST + SPARE], marks[MOST + SPARE];
static uint32_t cell_indices[MOST + SPARE], data[MOST + SPARE];
static uint8_t cell_counts[MOST + SPARE], span_areas[MOST + SPARE];
static uint16_t ys[MOST + SPARE];
static bool made, packed; // a field was made; the last `compact` gave a result

static float vertices[MOST_NUMBERS];
static uint32_t indices[MOST_NUMBERS];
static uint8_t triangle_areas[MOST_NUMBERS / 3];
static uint32_t vertex_numbers, faces;
static uint8_t area;

static uint32_t said[4];

#define FIELD heads, columns, &free_head, floors, slots, ceilings, slots, areas, slots, nexts, slots
#define STORE FIELD, marks, slots
#define MESH vertices, vertex_numbers, indices, 3 * faces, triangle_areas, faces

// ---- words

static int line_number;

static void not_understood(void) {
  fflush(stdout);
  fprintf(stderr, "line %d: not understood\n", line_number);
  exit(2);
}

// A whole number, decimal or 0x, up to a limit.
static uint32_t whole(const char *word, uint32_t most) {
  bool hex = word[0] == '0' && word[1] == 'x';
  const char *digits = hex ? word + 2 : word;
  if (!*digits || strspn(digits, hex ? "0123456789abcdefABCDEF" : "0123456789") != strlen(digits)) not_understood();
  unsigned long long number = strtoull(digits, NULL, hex ? 16 : 10);
  if (strlen(digits) > 10 || number > most) not_understood();
  return (uint32_t)number;
}

// A float, decimal or as 0x and its bits.
static float decimal_or_bits(const char *word) {
  float value;
  if (word[0] == '0' && word[1] == 'x') {
    uint32_t bits = whole(word, NONE);
    memcpy(&value, &bits, sizeof value);
    return value;
  }
  char *end;
  value = strtof(word, &end);
  if (end == word || *end) not_understood();
  return value;
}

// ---- after each call

static void stop(const char *name, const char *what) {
  fflush(stdout);
  fprintf(stderr, "line %d: %s: %s\n", line_number, name, what);
  exit(3);
}

static bool all(const void *from, size_t count, uint8_t value) {
  const uint8_t *bytes = from;
  for (size_t i = 0; i < count; i++)
    if (bytes[i] != value) return false;
  return true;
}

#define GUARDED(array, count) (all((array) + (count), SPARE * sizeof *(array), GUARD))
#define SET_GUARD(array, count) memset((array) + (count), GUARD, SPARE * sizeof *(array))

static void prepare(void) {
  SET_GUARD(heads, columns), SET_GUARD(cell_indices, columns), SET_GUARD(cell_counts, columns);
  SET_GUARD(floors, slots), SET_GUARD(ceilings, slots), SET_GUARD(areas, slots), SET_GUARD(nexts, slots);
  SET_GUARD(ys, spans), SET_GUARD(data, spans), SET_GUARD(span_areas, spans);
  memset(marks, GUARD, slots + SPARE);
  memset(said, 0, sizeof said);
}

static void look(const char *name, uint32_t reply) {
  bool tested = strcmp(name, "fresh") != 0 && (reply == 0 || reply > 4);
  // reply 1 comes from the grid, before the field is tested, or from a vertex, after it
  bool either = reply == 1 && (!strcmp(name, "rasterize") || !strcmp(name, "populate"));
  bool zero = all(marks, slots, 0), kept = all(marks, slots, GUARD);
  if (either ? !zero && !kept : tested ? !zero : !kept) stop(name, "the marks are not as they should be");
  bool cells = GUARDED(heads, columns) && GUARDED(cell_indices, columns) && GUARDED(cell_counts, columns);
  bool store = GUARDED(floors, slots) && GUARDED(ceilings, slots) && GUARDED(areas, slots) && GUARDED(nexts, slots);
  bool result = GUARDED(ys, spans) && GUARDED(data, spans) && GUARDED(span_areas, spans);
  if (!cells || !store || !result || !GUARDED(marks, slots)) stop(name, "written past what was lent");
}

static void answer(const char *name, uint32_t reply) {
  look(name, reply);
  bool mesh = !strcmp(name, "rasterize") || !strcmp(name, "populate");
  bool compact = !strcmp(name, "compact");
  printf("%s: reply %u", name, reply);
  if (reply == 1 || (reply == 0 && compact)) printf(" 0x%08x", said[0]);
  if (reply == 3) printf(" 0x%08x 0x%08x", said[0], said[1]);
  if (mesh && (reply == 5 || reply == 6 || reply == 7)) printf(" %u %u", said[0], said[1]);
  if (reply == 12) printf(" %u 0x%08x", said[0], said[1]);
  putchar('\n');
  if (compact) packed = reply == 0 || reply == 12;
  if (!strcmp(name, "fresh")) made = made || reply == 0;
}

// ---- what the lines ask for

// The columns of a grid within the limits; one is lent to a grid that is refused.
static uint32_t columns_of_grid(void) {
  float width = (grid[3] - grid[0]) / grid[6] + 0.5f, height = (grid[5] - grid[2]) / grid[6] + 0.5f;
  if (!(width >= 1 && width < 4097 && height >= 1 && height < 4097)) return 1;
  uint32_t count = (uint32_t)width * (uint32_t)height;
  return count <= MOST ? count : 1;
}

static void start(const char *line) {
  slots = spans = 1024;
  vertex_numbers = faces = 0;
  area = 255;
  made = packed = false;
  printf("%s\n", line);
}

static void vertex(char **words) {
  if (vertex_numbers + 3 > MOST_NUMBERS) not_understood();
  for (int i = 0; i < 3; i++) vertices[vertex_numbers++] = decimal_or_bits(words[i]);
}

static void face(char **words) {
  if (3 * faces + 3 > MOST_NUMBERS) not_understood();
  for (int i = 0; i < 3; i++) indices[3 * faces + i] = whole(words[i], NONE) - 1; // 0 becomes no vertex
  triangle_areas[faces++] = area;
}

static void add(char **words) {
  uint32_t x = whole(words[0], NONE), z = whole(words[1], NONE), top = 65535;
  uint16_t floor = whole(words[2], top), ceiling = whole(words[3], top), threshold = whole(words[5], top);
  answer("add", lv_add_span(grid, said, STORE, x, z, floor, ceiling, whole(words[4], 255), threshold));
}

// A call other than `add`; its numbers are heights.
static bool call(const char *name, uint16_t a, uint16_t b, int count) {
  uint32_t reply;
  if (!strcmp(name, "fresh") && count == 0) {
    packed = false;
    reply = lv_fresh(grid, said, FIELD);
  } else if (!strcmp(name, "rasterize") && count == 1)
    reply = lv_rasterize_triangles(grid, said, STORE, MESH, a);
  else if (!strcmp(name, "populate") && count == 2)
    reply = lv_populate_from_trimesh(grid, said, STORE, MESH, a, b);
  else if (!strcmp(name, "low") && count == 1)
    reply = lv_filter_low_hanging_walkable_obstacles(grid, said, STORE, a);
  else if (!strcmp(name, "ledges") && count == 2)
    reply = lv_filter_ledge_spans(grid, said, STORE, a, b);
  else if (!strcmp(name, "ceilings") && count == 1)
    reply = lv_filter_walkable_low_height_spans(grid, said, STORE, a);
  else if (!strcmp(name, "compact") && count == 2)
    reply = lv_into_compact(grid, said, STORE, cell_indices, columns, cell_counts, columns, ys, spans, data, spans,
                            span_areas, spans, a, b);
  else
    return false;
  answer(name, reply);
  return true;
}

// ---- show

static uint32_t width_of_grid(void) { return (uint32_t)((grid[3] - grid[0]) / grid[6] + 0.5f); }

static void show_columns(void) {
  for (uint32_t column = 0; column < columns; column++) {
    if (heads[column] == NONE) continue;
    printf("%u %u: ", column % width_of_grid(), column / width_of_grid());
    for (uint32_t at = heads[column]; at != NONE; at = nexts[at])
      printf("%u-%u %u%s", floors[at], ceilings[at], areas[at], nexts[at] == NONE ? "\n" : ", ");
  }
}

#define SHOW_LINE(name, array, count) \
  do { \
    fputs(name, stdout); \
    for (uint32_t i = 0; i < (count); i++) printf(" %u", (array)[i]); \
    putchar('\n'); \
  } while (0)

static void show_raw(void) {
  SHOW_LINE("heads", heads, columns);
  printf("free %u\n", free_head);
  SHOW_LINE("floors", floors, slots);
  SHOW_LINE("ceilings", ceilings, slots);
  SHOW_LINE("areas", areas, slots);
  SHOW_LINE("nexts", nexts, slots);
}

static void show_compact(void) {
  if (!packed) return;
  uint32_t total = 0;
  for (uint32_t column = 0; column < columns; column++) {
    printf("cell %u %u: %u %u\n", column % width_of_grid(), column / width_of_grid(), cell_indices[column],
           cell_counts[column]);
    total += cell_counts[column];
  }
  for (uint32_t i = 0; i < total; i++) printf("span %u: %u 0x%08x %u\n", i, ys[i], data[i], span_areas[i]);
}

static bool show(const char *what) {
  printf("show %s\n", what);
  if (!made) return true;
  if (!strcmp(what, "columns")) return show_columns(), true;
  if (!strcmp(what, "raw")) return show_raw(), true;
  if (!strcmp(what, "compact")) return show_compact(), true;
  return false;
}

// ---- one line

// Settings and shapes: nothing is answered. False if it is none of them.
static bool set(const char *name, char **rest, int count) {
  if (!strcmp(name, "grid") && count == 8)
    for (int i = 0; i < 8; i++) grid[i] = decimal_or_bits(rest[i]);
  else if (!strcmp(name, "slots") && count == 1)
    slots = whole(rest[0], MOST);
  else if (!strcmp(name, "spans") && count == 1)
    spans = whole(rest[0], MOST);
  else if (!strcmp(name, "v") && count == 3)
    vertex(rest);
  else if (!strcmp(name, "f") && count == 3)
    face(rest);
  else if (!strcmp(name, "area") && count == 1)
    area = whole(rest[0], 255);
  else if (!strcmp(name, "nomesh") && count == 0)
    vertex_numbers = faces = 0;
  else
    return false;
  return true;
}

static void obey(const char *name, char **rest, int count) {
  if (set(name, rest, count)) return;
  if (!strcmp(name, "show") && count == 1 && show(rest[0])) return;
  columns = columns_of_grid();
  prepare();
  if (!strcmp(name, "add") && count == 6) return add(rest);
  uint16_t numbers[2] = {0, 0};
  for (int i = 0; i < count && i < 2; i++) numbers[i] = whole(rest[i], 65535);
  if (!call(name, numbers[0], numbers[1], count)) not_understood();
}

int main(void) {
  char *line = NULL;
  size_t room = 0;
  while (getline(&line, &room, stdin) >= 0) {
    line_number++;
    line[strcspn(line, "#\n")] = '\0';
    size_t end = strlen(line);
    while (end && strchr(" \t\r", line[end - 1])) line[--end] = '\0';
    if (!strncmp(line, "case ", 5)) {
      start(line);
      continue;
    }
    char *words[MOST_WORDS];
    int count = 0;
    for (char *word = strtok(line, " \t\r"); word; word = strtok(NULL, " \t\r")) {
      if (count == MOST_WORDS) not_understood();
      words[count++] = word;
    }
    if (count) obey(words[0], words + 1, count - 1);
  }
  free(line);
  return 0;
}
