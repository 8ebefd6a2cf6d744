// Times in_the_way of the strip register against the plain one, on seeded pieces and boxes like a search's moves.
#include <algorithm>
#include <cmath>
#include <cstdint>
#include <cstdio>
#include <ctime>
#include <random>
#include <vector>

struct Given { int32_t x1, y1, x2, y2; uint8_t layer, net; uint16_t space; };
struct Asked { int32_t x1, y1, x2, y2; uint8_t layer, net; uint16_t reach, space; };
extern "C" uint64_t plain_hits(const Given*, size_t, const Asked*, size_t, uint32_t);
extern "C" uint64_t strip_hits(const Given*, size_t, const Asked*, size_t, uint32_t, uint32_t);

static const int S = 60000;
static std::mt19937 rng;
static double real(double a, double b) { return std::uniform_real_distribution<double>(a, b)(rng); }
static int whole(int a, int b) { return std::uniform_int_distribution<int>(a, b)(rng); }

// boxes, wide and high wires over the panel, and a share of pieces of any height up to the whole panel
static std::vector<Given> pieces(int m, int layers, int tall) {
    static const int spaces[4] = {0, 100, 150, 200};
    std::vector<Given> v;
    double u = S / std::sqrt(m / std::max(1.0, layers / 2.0));
    while (int(v.size()) < m) {
        double t = real(0, 1), w, h;
        if (t < .5) { w = real(.1, .9) * u; h = real(.1, .9) * u; }
        else if (t < .75) { w = real(.5, 2.5) * u; h = real(.03, .12) * u; }
        else { w = real(.03, .12) * u; h = real(.5, 2.5) * u; }
        if (whole(1, 100) <= tall) { w = real(.03, .12) * u; h = real(u, S); }
        int x = whole(0, S - int(w)), y = whole(0, S - int(h));
        v.push_back({x, y, x + int(w) + 1, y + int(h) + 1, uint8_t(whole(1, layers)), uint8_t(whole(0, 3)), uint16_t(spaces[whole(0, 3)])});
    }
    return v;
}

// steps between neighbouring lines along x and along y, and vias
static std::vector<Asked> moves(int m, int layers, int n) {
    std::vector<Asked> v;
    for (int i = 0; i < n; i++) {
        int length = int(real(0, 2) * S / (4.0 * m)) + 1, kind = whole(0, 2);
        int x = whole(0, S - length), y = whole(0, S - length);
        v.push_back({x, y, kind == 0 ? x + length : x, kind == 1 ? y + length : y, uint8_t(whole(1, layers)), 8,
                     uint16_t(kind == 2 ? 200 : 100), 150});
    }
    return v;
}

// processor time, which other programs on the machine disturb least
static double nanoseconds() {
    timespec t;
    clock_gettime(CLOCK_PROCESS_CPUTIME_ID, &t);
    return t.tv_sec * 1e9 + t.tv_nsec;
}

// of one question: the time of all rounds less that of filling the register
static double timed(uint64_t (*f)(const std::vector<Given>&, const std::vector<Asked>&, uint32_t), const std::vector<Given>& g,
                    const std::vector<Asked>& a, uint32_t rounds, uint64_t& hits) {
    double t0 = nanoseconds();
    f(g, a, 0);
    double t1 = nanoseconds();
    hits = f(g, a, rounds);
    double t2 = nanoseconds();
    return ((t2 - t1) - (t1 - t0)) / (double(rounds) * a.size());
}
static uint64_t plain(const std::vector<Given>& g, const std::vector<Asked>& a, uint32_t rounds) {
    return plain_hits(g.data(), g.size(), a.data(), a.size(), rounds);
}
static uint64_t strip(const std::vector<Given>& g, const std::vector<Asked>& a, uint32_t rounds) {
    return strip_hits(g.data(), g.size(), a.data(), a.size(), rounds, S);
}

static bool row(int layers, int tall, int m) {
    rng.seed(7 * m + tall);
    auto g = pieces(m, layers, tall);
    auto a = moves(m, layers, 4096);
    uint32_t rounds = 20000 / m + 2;
    double p = 1e18, s = 1e18;
    uint64_t hp = 0, hs = 0;
    for (int k = 0; k < 7; k++) {
        p = std::min(p, timed(plain, g, a, rounds, hp));
        s = std::min(s, timed(strip, g, a, rounds, hs));
    }
    printf("%6d  %6d  %6d  %12.1f  %8.1f  %8.1f  %5.2f\n", layers, tall, m, 100.0 * hp / (double(rounds) * a.size()), p, s, s / p);
    return hp == hs;
}

int main() {
    printf("layers  tall %%  pieces  in the way %%  plain ns  strip ns  ratio\n");
    for (int layers : {1, 2})
        for (int tall : {0, 5, 20})
            for (int m : {30, 120, 250, 1000, 4000})
                if (!row(layers, tall, m)) { printf("the registers disagree\n"); return 1; }
}
