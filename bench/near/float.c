/* The same points, triangles and question in floating point: the closest point of a triangle by
   Voronoi regions (Ericson, Real-Time Collision Detection, 5.1.5). */
#include <stdint.h>
#include <stdio.h>
#include <stdlib.h>

typedef struct { double x, y, z; } vec;

static uint64_t next(uint64_t seed) { return seed * 6364136223846793005u + 1442695040888963407u; }

static double coordinate(uint64_t seed, uint64_t size) { return (double)((seed >> 40) % (size + 1)); }

static vec point(uint64_t seed, uint64_t size) {
    uint64_t second = next(seed), third = next(second);
    vec p = {coordinate(seed, size), coordinate(second, size), coordinate(third, size)};
    return p;
}

static vec less(vec a, vec b) { vec c = {a.x - b.x, a.y - b.y, a.z - b.z}; return c; }

static vec along(vec a, double t, vec d) { vec c = {a.x + t * d.x, a.y + t * d.y, a.z + t * d.z}; return c; }

static double dot(vec a, vec b) { return a.x * b.x + a.y * b.y + a.z * b.z; }

enum { CORNER, EDGE, FACE };

static vec closest(vec p, vec a, vec b, vec c, int *where) {
    vec ab = less(b, a), ac = less(c, a), ap = less(p, a);
    double d1 = dot(ab, ap), d2 = dot(ac, ap);
    *where = CORNER;
    if (d1 <= 0 && d2 <= 0) return a;
    vec bp = less(p, b);
    double d3 = dot(ab, bp), d4 = dot(ac, bp);
    if (d3 >= 0 && d4 <= d3) return b;
    vec cp = less(p, c);
    double d5 = dot(ab, cp), d6 = dot(ac, cp);
    if (d6 >= 0 && d5 <= d6) return c;
    *where = EDGE;
    double vc = d1 * d4 - d3 * d2;
    if (vc <= 0 && d1 >= 0 && d3 <= 0) return along(a, d1 / (d1 - d3), ab);
    double vb = d5 * d2 - d1 * d6;
    if (vb <= 0 && d2 >= 0 && d6 <= 0) return along(a, d2 / (d2 - d6), ac);
    double va = d3 * d6 - d5 * d4;
    if (va <= 0 && d4 - d3 >= 0 && d5 - d6 >= 0) return along(b, (d4 - d3) / ((d4 - d3) + (d5 - d6)), less(c, b));
    *where = FACE;
    double scale = 1 / (va + vb + vc);
    return along(along(a, vb * scale, ab), vc * scale, ac);
}

int main(int count, char **words) {
    long calls = count > 1 ? atol(words[1]) : 10000000;
    uint64_t size = 8192, seed = 1;
    double epsilon = 1024;
    long found = 0, regions[3] = {0, 0, 0};
    for (long i = 0; i < calls; i++) {
        seed = next(seed);
        int where;
        vec p = point(seed, size);
        vec q = closest(p, point(next(seed), size), point(next(seed ^ 0x9e3779b9u), size), point(next(seed ^ 0x7f4a7c15u), size), &where);
        vec d = less(p, q);
        found += dot(d, d) <= epsilon * epsilon;
        regions[where]++;
    }
    printf("%ld\n%ld %ld %ld\n", found, regions[FACE], regions[EDGE], regions[CORNER]);
    return 0;
}
