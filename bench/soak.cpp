// The command `soak` over CGAL's combinatorial and generalized maps: KIND SEED COUNT. Faces have three whole numbers, which add
// up where faces merge and are dealt out where a face is split. The text is that of cellmap.
#include <CGAL/Combinatorial_map.h>
#include <CGAL/Generalized_map.h>

#include <array>
#include <cstdint>
#include <cstdio>
#include <cstdlib>
#include <cstring>
#include <vector>

struct Value {
  std::array<std::int64_t, 3> numbers;
};

static std::int64_t held_sum(std::int64_t x, std::int64_t y) {
  std::int64_t sum;
  if (!__builtin_add_overflow(x, y, &sum)) return sum;
  return x < 0 ? INT64_MIN : INT64_MAX;
}

struct Sum {
  template <class Attribute>
  void operator()(Attribute &one, Attribute &other) const {
    for (int k = 0; k < 3; k++) one.info().numbers[k] = held_sum(one.info().numbers[k], other.info().numbers[k]);
  }
};

struct Share {
  template <class Attribute>
  void operator()(Attribute &one, Attribute &other) const {
    for (int k = 0; k < 3; k++) {
      std::int64_t number = one.info().numbers[k];
      std::int64_t half = number / 2 - (number % 2 < 0);
      one.info().numbers[k] = number - half;
      other.info().numbers[k] = half;
    }
  }
};

struct Items {
  template <class Map>
  struct Dart_wrapper {
    typedef CGAL::Cell_attribute<Map, Value, CGAL::Tag_true, Sum, Share> Face;
    typedef std::tuple<void, void, Face> Attributes;
  };
};

typedef CGAL::Generalized_map<2, Items> Generalized;
typedef CGAL::Combinatorial_map<2, Items> Combinatorial;

// The dart of a square that is sewn to the one before, that of the third side to which the next one is sewn, and the other end
// of the diagonal.
struct AlphaSides {
  typedef Generalized::Dart_handle Dart;
  static Dart joined(Generalized &map, Dart first) { return map.alpha<0>(first); }
  static Dart third(Generalized &map, Dart first) { return map.alpha<0, 1, 0, 1>(first); }
  static Dart opposite(Generalized &map, Dart first) { return map.alpha<0, 1, 0>(first); }
};

struct BetaSides {
  typedef Combinatorial::Dart_handle Dart;
  static Dart joined(Combinatorial &, Dart first) { return first; }
  static Dart third(Combinatorial &map, Dart first) { return map.beta<1, 1>(first); }
  static Dart opposite(Combinatorial &map, Dart first) { return map.beta<1, 1>(first); }
};

template <class Map, class Sides>
static void soak(std::uint64_t seed, std::uint64_t count) {
  typedef typename Map::Dart_handle Dart;
  Map map;
  std::uint64_t lines = 1;
  auto draw = [&seed]() {
    seed = (seed * 1103515245 + 12345) % 2147483648u;
    return seed / 65536;
  };
  Dart third = nullptr;
  for (std::uint64_t square = 0; square < count; square++) {
    Dart first = map.make_combinatorial_polygon(4);
    Dart next = Sides::third(map, first);
    Dart opposite = Sides::opposite(map, first);
    lines += 3;
    if (square > 0) {
      map.template sew<2>(third, Sides::joined(map, first));
      lines++;
    }
    Value value = {{static_cast<std::int64_t>(draw() % 1000), 0, 0}};
    map.template set_attribute<2>(first, map.template create_attribute<2>(value));
    switch (draw() % 4) {
      case 0: map.insert_cell_0_in_cell_1(first); break;
      case 1: map.insert_cell_1_in_cell_2(first, opposite); break;
      case 2: map.create_dart(); break;
      default: map.template remove_cell<1>(first); break;
    }
    third = next;
  }
  __int128 total = 0;
  for (auto &face : map.template attributes<2>()) total += face.info().numbers[0];
  std::printf("soak %llu %llu %lld\n", static_cast<unsigned long long>(lines), static_cast<unsigned long long>(lines),
              static_cast<long long>(total));
  std::vector<unsigned> cells = map.count_all_cells();
  std::printf("count %zu", map.number_of_darts());
  for (unsigned number : cells) std::printf(" %u", number);
  std::printf("\n");
}

int main(int count, char **words) {
  if (count != 5 || std::strcmp(words[1], "soak") != 0) {
    std::printf("usage\n");
    return 2;
  }
  std::uint64_t seed = std::strtoull(words[3], nullptr, 10), squares = std::strtoull(words[4], nullptr, 10);
  if (std::strcmp(words[2], "g") == 0)
    soak<Generalized, AlphaSides>(seed, squares);
  else
    soak<Combinatorial, BetaSides>(seed, squares);
  return 0;
}
