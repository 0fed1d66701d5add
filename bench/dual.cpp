// The same work in plain C++: the dual of a generalized map of dimension 2, taken twice, over rows of three links.
#include <array>
#include <chrono>
#include <cstdint>
#include <cstdio>
#include <cstdlib>
#include <utility>
#include <vector>

using Row = std::array<std::uint32_t, 3>;

static bool dual(std::vector<Row> &rows) {
  for (const Row &row : rows)
    for (std::uint32_t link : row)
      if (link == 0) return false;
  for (Row &row : rows) std::swap(row[0], row[2]);
  return true;
}

int main(int argc, char **argv) {
  std::uint32_t darts = std::atoi(argv[1]);
  std::vector<Row> rows(darts);
  for (std::uint32_t d = 0; d < darts; d++) rows[d] = {(d ^ 1) + 1, (d + 2) % darts + 1, darts - d};
  auto before = std::chrono::steady_clock::now();
  bool done = dual(rows) && dual(rows);
  std::chrono::duration<double, std::milli> taken = std::chrono::steady_clock::now() - before;
  std::printf("%d %u %.1f ms\n", done, rows[darts / 2][0], taken.count());
}
