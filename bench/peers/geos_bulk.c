/* Windows over GEOS's STR-packed tree, by its C API, for bench/python.py.
 *
 *     geos_bulk BOXES WINDOWS
 *
 * Each file has rows of four 64-bit numbers: min_x, max_x, min_y, max_y. For each line of standard input all windows are
 * asked. The answer is the number of pairs of a window and a box, and then the pairs, in no order, as places from 0.
 */
#define GEOS_USE_ONLY_R_API
#include <geos_c.h>
#include <stdint.h>
#include <stdio.h>
#include <stdlib.h>

struct sides { int64_t min_x, max_x, min_y, max_y; };
struct rows { struct sides *of; size_t count; };
struct pairs { int64_t *of; size_t count, room; int64_t window; };

static void fail(const char *what)
{
    perror(what);
    exit(1);
}

static struct rows rows_of(const char *name)
{
    struct rows rows = { NULL, 0 };
    FILE *file = fopen(name, "rb");
    if (!file || fseek(file, 0, SEEK_END))
        fail(name);
    rows.count = (size_t)ftell(file) / sizeof *rows.of;
    rewind(file);
    rows.of = malloc(rows.count * sizeof *rows.of);
    if (!rows.of || fread(rows.of, sizeof *rows.of, rows.count, file) != rows.count)
        fail(name);
    fclose(file);
    return rows;
}

static GEOSGeometry *rectangle(GEOSContextHandle_t geos, const struct sides *it)
{
    return GEOSGeom_createRectangle_r(geos, (double)it->min_x, (double)it->min_y, (double)it->max_x, (double)it->max_y);
}

static void keep(void *item, void *data)
{
    struct pairs *pairs = data;
    if (pairs->count == pairs->room) {
        pairs->room = 2 * pairs->room + 1024;
        pairs->of = realloc(pairs->of, 2 * pairs->room * sizeof *pairs->of);
        if (!pairs->of)
            fail("pairs");
    }
    pairs->of[2 * pairs->count] = pairs->window;
    pairs->of[2 * pairs->count + 1] = (int64_t)(uintptr_t)item;
    pairs->count++;
}

int main(int count, char **words)
{
    if (count != 3)
        return 2;
    struct rows boxes = rows_of(words[1]), windows = rows_of(words[2]);
    GEOSContextHandle_t geos = GEOS_init_r();
    GEOSSTRtree *tree = GEOSSTRtree_create_r(geos, 10);
    for (size_t at = 0; at < boxes.count; at++)
        GEOSSTRtree_insert_r(geos, tree, rectangle(geos, &boxes.of[at]), (void *)(uintptr_t)at);
    struct pairs pairs = { NULL, 0, 0, 0 };
    char line[16];
    while (fgets(line, sizeof line, stdin)) {
        pairs.count = 0;
        for (size_t at = 0; at < windows.count; at++) {
            GEOSGeometry *window = rectangle(geos, &windows.of[at]);
            pairs.window = (int64_t)at;
            GEOSSTRtree_query_r(geos, tree, window, keep, &pairs);
            GEOSGeom_destroy_r(geos, window);
        }
        int64_t found = (int64_t)pairs.count;
        fwrite(&found, sizeof found, 1, stdout);
        fwrite(pairs.of, 2 * sizeof *pairs.of, pairs.count, stdout);
        fflush(stdout);
    }
    return 0;
}
