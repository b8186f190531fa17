// Triangulates a polygon without holes by ear clipping, to compare `triangulate` with: a line of
// `x y` pairs that turn counterclockwise, and a triangle a line. It is the usual program, with a
// doubly linked list that is walked for each candidate, after a test of bounding boxes.
//
//     g++ -O2 -o ear_clipping ear_clipping.cpp && ./ear_clipping < ring
#include <algorithm>
#include <cstdint>
#include <cstdio>
#include <vector>

struct Corner {
    int32_t x, y, prev, next;
};

static __int128 orientation(const Corner &p, const Corner &q, const Corner &r) {
    return (__int128)((int64_t)q.x - p.x) * ((int64_t)r.y - p.y) -
           (__int128)((int64_t)r.x - p.x) * ((int64_t)q.y - p.y);
}

static bool same(const Corner &p, const Corner &q) { return p.x == q.x && p.y == q.y; }

static bool is_ear(const std::vector<Corner> &ring, const Corner &b) {
    const Corner &a = ring[b.prev], &c = ring[b.next];
    if (orientation(a, b, c) <= 0) return false;
    int32_t left = std::min({a.x, b.x, c.x}), right = std::max({a.x, b.x, c.x});
    int32_t bottom = std::min({a.y, b.y, c.y}), top = std::max({a.y, b.y, c.y});
    for (int32_t i = c.next; i != b.prev; i = ring[i].next) {
        const Corner &p = ring[i];
        if (p.x < left || p.x > right || p.y < bottom || p.y > top) continue;
        if (same(p, a) || same(p, b) || same(p, c)) continue;
        if (orientation(a, b, p) >= 0 && orientation(b, c, p) >= 0 && orientation(c, a, p) >= 0)
            return false;
    }
    return true;
}

int main() {
    std::vector<Corner> ring;
    int32_t x, y;
    while (scanf("%d %d", &x, &y) == 2) ring.push_back({x, y, 0, 0});
    int32_t n = ring.size();
    for (int32_t i = 0; i < n; i++) {
        ring[i].prev = (i + n - 1) % n;
        ring[i].next = (i + 1) % n;
    }
    int32_t left = n, failed = 0, at = 0;
    while (left > 2 && failed <= left) {
        const Corner &b = ring[at];
        if (!is_ear(ring, b)) {
            failed++;
            at = b.next;
            continue;
        }
        const Corner &a = ring[b.prev], &c = ring[b.next];
        printf("%d %d %d %d %d %d\n", a.x, a.y, b.x, b.y, c.x, c.y);
        ring[b.prev].next = b.next;
        ring[b.next].prev = b.prev;
        at = c.next;
        left--;
        failed = 0;
    }
    return left == 2 ? 0 : 1;
}
