// The same work in plain C++: reads a mesh in OFF text, sews its triangles by sorting their edges, and counts.
#include <algorithm>
#include <cstdint>
#include <cstdio>
#include <cstdlib>
#include <fstream>
#include <iterator>
#include <string>
#include <vector>

using Darts = std::vector<std::uint32_t>;

static long long next_number(const char *&at) {
  char *end;
  long long n = std::strtoll(at, &end, 10);
  at = end;
  return n;
}

struct Edge {
  std::uint64_t key;
  std::uint32_t side;
};

// how many orbits the darts have under these links
static unsigned orbits(const std::vector<const Darts *> &links, std::size_t darts) {
  std::vector<char> seen(darts + 1, 0);
  Darts stack;
  unsigned count = 0;
  for (std::uint32_t first = 1; first <= darts; first++) {
    if (seen[first]) continue;
    count++;
    seen[first] = 1;
    stack.push_back(first);
    while (!stack.empty()) {
      std::uint32_t dart = stack.back();
      stack.pop_back();
      for (const Darts *link : links) {
        std::uint32_t other = (*link)[dart];
        if (other && !seen[other]) {
          seen[other] = 1;
          stack.push_back(other);
        }
      }
    }
  }
  return count;
}

int main(int argc, char **argv) {
  std::ifstream file(argv[1], std::ios::binary);
  std::string text((std::istreambuf_iterator<char>(file)), std::istreambuf_iterator<char>());
  const char *at = text.c_str() + 3;
  long long points = next_number(at), faces = next_number(at);
  next_number(at);
  std::vector<long long> xyz(3 * points);
  for (auto &x : xyz) x = next_number(at);
  std::vector<std::uint32_t> corners;
  std::vector<std::uint32_t> begins{0};
  for (long long f = 0; f < faces; f++) {
    long long n = next_number(at);
    for (long long i = 0; i < n; i++) corners.push_back(next_number(at));
    begins.push_back(corners.size());
  }
  std::size_t sides = corners.size(), darts = 2 * sides;
  Darts zeroth(darts + 1), first(darts + 1), second(darts + 1);
  std::vector<Edge> edges(sides);
  for (long long f = 0; f < faces; f++) {
    for (std::uint32_t s = begins[f]; s < begins[f + 1]; s++) {
      std::uint32_t next = s + 1 == begins[f + 1] ? begins[f] : s + 1;
      zeroth[2 * s + 1] = 2 * s + 2;
      zeroth[2 * s + 2] = 2 * s + 1;
      first[2 * s + 2] = 2 * next + 1;
      first[2 * next + 1] = 2 * s + 2;
      std::uint64_t low = std::min(corners[s], corners[next]), high = std::max(corners[s], corners[next]);
      edges[s] = {low << 32 | high, s};
    }
  }
  std::sort(edges.begin(), edges.end(), [](const Edge &x, const Edge &y) { return x.key < y.key; });
  for (std::size_t i = 0; i + 1 < sides; i++) {
    if (edges[i].key != edges[i + 1].key) continue;
    std::uint32_t s = edges[i].side, t = edges[i + 1].side;
    bool same = corners[s] == corners[t];
    second[2 * s + 1] = same ? 2 * t + 1 : 2 * t + 2;
    second[2 * s + 2] = same ? 2 * t + 2 : 2 * t + 1;
    second[2 * t + 1] = same ? 2 * s + 1 : 2 * s + 2;
    second[2 * t + 2] = same ? 2 * s + 2 : 2 * s + 1;
  }
  std::printf("count %zu %u %u %u %u\n", darts, orbits({&first, &second}, darts), orbits({&zeroth, &second}, darts),
              orbits({&zeroth, &first}, darts), orbits({&zeroth, &first, &second}, darts));
}
