// The usual method for a plan: the free period by halving with Bellman-Ford on the constraint graph, the two-timing period
// by halving with 2-SAT by strongly connected components, and the first split register by register. For the reason for a period:
// a register with both choices in one component, and the shortest ways from early to late and back.
#include "plain.h"

#include <algorithm>
#include <vector>

namespace {

struct Pair {
    int launch, capture;
    int least, greatest;
};

struct Net {
    int registers;
    std::vector<Pair> pairs;
};

// A pair with the needs of its capture register counted in: its hold off the least delay, its setup on the greatest.
Net read(const uint32_t *words) {
    Net net;
    size_t m = words[0] & 0xfff;
    net.registers = words[0] >> 12 & 0x3ff;
    net.pairs.resize(m);
    bool needy = words[1] >> 29 == 5;
    const uint32_t *needs = words + 1, *first = needs + (needy ? net.registers : 0);
    for (size_t k = 0; k < m; k++) {
        const uint32_t *w = first + 3 * k;
        Pair p = {int(w[0] >> 10 & 0x3ff), int(w[0] & 0x3ff), int(w[1] & 0x1fffffff), int(w[2] & 0x1fffffff)};
        if (needy) {
            p.least -= int(needs[p.capture] & 0x3fff);
            p.greatest += int(needs[p.capture] >> 14 & 0x3fff);
        }
        net.pairs[k] = p;
    }
    return net;
}

int common_period(const Net &net) {
    int most = 1;
    for (const Pair &p : net.pairs)
        most = std::max(most, p.greatest);
    return most;
}

// ---- the free schedule

struct Arc {
    int from, to, gain;
};

// Longest paths from a source that reaches every register at 0; false if a cycle keeps growing.
bool bellman_ford(const Net &net, int period, std::vector<Arc> &arcs, std::vector<int64_t> &time) {
    arcs.clear();
    for (const Pair &p : net.pairs) {
        arcs.push_back({p.launch, p.capture, p.greatest - period});
        arcs.push_back({p.capture, p.launch, -p.least});
    }
    std::fill(time.begin(), time.end(), 0);
    for (int round = 0; round <= net.registers; round++) {
        bool moved = false;
        for (const Arc &a : arcs) {
            int64_t reached = time[a.from] + a.gain;
            if (reached > time[a.to]) {
                time[a.to] = reached;
                moved = true;
            }
        }
        if (!moved)
            return true;
    }
    return false;
}

int free_period(const Net &net, int common, std::vector<int64_t> &time) {
    std::vector<Arc> arcs;
    arcs.reserve(2 * net.pairs.size());
    int low = 1, high = common;
    while (low < high) {
        int middle = (low + high) / 2;
        if (bellman_ford(net, middle, arcs, time))
            high = middle;
        else
            low = middle + 1;
    }
    bellman_ford(net, low, arcs, time);
    return low;
}

// ---- splits

// What each choice forces: node 2r is register r early, 2r + 1 is r late. Arcs of one node stand together.
struct Implications {
    std::vector<int> first, to;
};

bool meets(const Pair &p, int period, int launch, int capture) {
    return launch - capture <= period - p.greatest && capture - launch <= p.least;
}

// Each pair of choices that breaks a rule, and its step: 4 times the pair's index plus the row.
template <class Each> void clauses(const Net &net, int period, int offset, Each each) {
    int step = 0;
    for (const Pair &p : net.pairs)
        for (int a = 0; a < 2; a++)
            for (int b = 0; b < 2; b++, step++)
                if ((p.launch != p.capture || a == b) && !meets(p, period, a * offset, b * offset))
                    each(2 * p.launch + a, 2 * p.capture + b, step);
}

void build(const Net &net, int period, int offset, Implications &g) {
    int nodes = 2 * net.registers;
    g.first.assign(nodes + 1, 0);
    clauses(net, period, offset, [&](int x, int y, int) {
        g.first[x + 1]++;
        g.first[y + 1]++;
    });
    for (int v = 0; v < nodes; v++)
        g.first[v + 1] += g.first[v];
    g.to.resize(g.first[nodes]);
    std::vector<int> next(g.first.begin(), g.first.end() - 1);
    clauses(net, period, offset, [&](int x, int y, int) {
        g.to[next[x]++] = y ^ 1;
        g.to[next[y]++] = x ^ 1;
    });
}

// Tarjan's components without recursion: the first register that has both choices in one, or -1.
int torn(const Implications &g) {
    int nodes = int(g.first.size()) - 1, clock = 0, parts = 0;
    std::vector<int> order(nodes, -1), low(nodes, 0), part(nodes, -1), at(nodes, 0), stack, path;
    for (int start = 0; start < nodes; start++) {
        if (order[start] >= 0)
            continue;
        path.push_back(start);
        while (!path.empty()) {
            int v = path.back();
            if (order[v] < 0) {
                order[v] = low[v] = clock++;
                at[v] = g.first[v];
                stack.push_back(v);
            }
            bool deeper = false;
            while (at[v] < g.first[v + 1]) {
                int w = g.to[at[v]];
                if (order[w] < 0) {
                    path.push_back(w);
                    deeper = true;
                    break;
                }
                if (part[w] < 0)
                    low[v] = std::min(low[v], low[w]);
                at[v]++;
            }
            if (deeper)
                continue;
            if (low[v] == order[v]) {
                int w;
                do {
                    w = stack.back();
                    stack.pop_back();
                    part[w] = parts;
                } while (w != v);
                parts++;
            }
            path.pop_back();
        }
    }
    for (int v = 0; v < nodes; v += 2)
        if (part[v] == part[v + 1])
            return v / 2;
    return -1;
}

int two_period(const Net &net, int free, int common) {
    Implications g;
    int low = free, high = common;
    while (low < high) {
        int middle = (low + high) / 2;
        build(net, middle, common - middle, g);
        if (torn(g) < 0)
            high = middle;
        else
            low = middle + 1;
    }
    return low;
}

// Takes a choice with all that it forces; takes it all back if that clashes.
bool take(const Implications &g, std::vector<int> &chosen, int node) {
    std::vector<int> taken{node};
    chosen[node >> 1] = node & 1;
    for (size_t i = 0; i < taken.size(); i++)
        for (int k = g.first[taken[i]]; k < g.first[taken[i] + 1]; k++) {
            int w = g.to[k];
            if (chosen[w >> 1] < 0) {
                chosen[w >> 1] = w & 1;
                taken.push_back(w);
            } else if (chosen[w >> 1] != (w & 1)) {
                for (int v : taken)
                    chosen[v >> 1] = -1;
                return false;
            }
        }
    return true;
}

// The first split in register order, early before late, where there is one.
void first_split(const Net &net, int period, int offset, uint32_t *timings) {
    Implications g;
    build(net, period, offset, g);
    std::vector<int> chosen(net.registers, -1);
    for (int r = 0; r < net.registers; r++)
        if (chosen[r] < 0 && !take(g, chosen, 2 * r))
            take(g, chosen, 2 * r + 1);
    for (int r = 0; r < net.registers; r++)
        timings[r] = chosen[r] == 1 ? offset : 0;
}

// ---- the reason for a period

// The step of each arc.
std::vector<int> steps_of(const Net &net, int period, int offset, const Implications &g) {
    std::vector<int> next(g.first.begin(), g.first.end() - 1), steps(g.to.size());
    clauses(net, period, offset, [&](int x, int y, int step) {
        steps[next[x]++] = step;
        steps[next[y]++] = step;
    });
    return steps;
}

// The steps of the shortest way from a node to another, breadth first. Their count.
size_t way(const Implications &g, const std::vector<int> &steps, int from, int to, uint32_t *chain) {
    std::vector<int> before(g.first.size() - 1, -1), by(g.first.size() - 1, 0), line{from};
    for (size_t i = 0; before[to] < 0; i++)
        for (int k = g.first[line[i]]; k < g.first[line[i] + 1]; k++)
            if (g.to[k] != from && before[g.to[k]] < 0) {
                before[g.to[k]] = line[i];
                by[g.to[k]] = steps[k];
                line.push_back(g.to[k]);
            }
    size_t count = 0;
    for (int v = to; v != from; v = before[v])
        chain[count++] = uint32_t(by[v]);
    std::reverse(chain, chain + count);
    return count;
}

} // namespace

void plain_why_not(const uint32_t *words, uint32_t period, uint32_t *answer, uint64_t numbers[4]) {
    Net net = read(words);
    int offset = std::max(0, common_period(net) - int(period));
    Implications g;
    build(net, int(period), offset, g);
    int r = torn(g);
    std::fill(numbers, numbers + 4, 0);
    if (r < 0)
        return;
    std::vector<int> steps = steps_of(net, int(period), offset, g);
    numbers[0] = 1;
    numbers[1] = r;
    numbers[2] = way(g, steps, 2 * r, 2 * r + 1, answer);
    numbers[3] = way(g, steps, 2 * r + 1, 2 * r, answer + numbers[2]);
}

void plain_plan(const uint32_t *words, size_t, uint32_t *answer, uint64_t numbers[4]) {
    Net net = read(words);
    int common = common_period(net);
    std::vector<int64_t> time(net.registers, 0);
    int free = free_period(net, common, time);
    for (int r = 0; r < net.registers; r++)
        answer[r] = uint32_t(time[r]);
    int two = two_period(net, free, common);
    first_split(net, two, common - two, answer + net.registers);
    numbers[0] = common;
    numbers[1] = free;
    numbers[2] = two;
    numbers[3] = common - two;
}

size_t plain_convert(const uint32_t *words, uint32_t *answer) {
    size_t m = words[0] & 0xfff, first = words[1] >> 29 == 5 ? 1 + (words[0] >> 12 & 0x3ff) : 1;
    std::vector<Pair> pairs(m);
    for (size_t k = 0; k < m; k++) {
        const uint32_t *w = words + first + 3 * k;
        pairs[k] = {int(w[0] >> 10 & 0x3ff), int(w[0] & 0x3ff), int(w[1] & 0x1fffffff), int(w[2] & 0x1fffffff)};
    }
    std::sort(pairs.begin(), pairs.end(), [](const Pair &p, const Pair &q) {
        return p.launch != q.launch ? p.launch < q.launch : p.capture < q.capture;
    });
    size_t kept = 0;
    for (const Pair &p : pairs) {
        if (kept > 0 && pairs[kept - 1].launch == p.launch && pairs[kept - 1].capture == p.capture) {
            pairs[kept - 1].least = std::min(pairs[kept - 1].least, p.least);
            pairs[kept - 1].greatest = std::max(pairs[kept - 1].greatest, p.greatest);
        } else {
            pairs[kept++] = p;
        }
    }
    std::copy(words, words + first, answer);
    answer[0] = words[0] - uint32_t(m) + uint32_t(kept);
    size_t at = first;
    for (size_t k = 0; k < kept; k++) {
        answer[at++] = 2u << 29 | uint32_t(pairs[k].launch) << 10 | uint32_t(pairs[k].capture);
        answer[at++] = 3u << 29 | uint32_t(pairs[k].least);
        answer[at++] = 4u << 29 | uint32_t(pairs[k].greatest);
    }
    uint32_t sum = 0;
    for (size_t i = 0; i < at; i++)
        sum += answer[i];
    answer[at] = 7u << 29 | (sum & 0x1fffffff);
    return at + 1;
}

uint32_t plain_common(const uint32_t *words) {
    return uint32_t(common_period(read(words)));
}

size_t plain_clauses(const uint32_t *words, uint32_t period, uint32_t offset, int *literals) {
    size_t count = 0;
    clauses(read(words), period, offset, [&](int x, int y, int) {
        literals[count++] = x & 1 ? -(x / 2 + 1) : x / 2 + 1;
        literals[count++] = y & 1 ? -(y / 2 + 1) : y / 2 + 1;
    });
    return count / 2;
}
