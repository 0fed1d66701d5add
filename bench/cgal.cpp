// The same scripts over CGAL's combinatorial and generalized maps: a mesh in OFF text with points as values of its vertices,
// the lines polygon, sew, unsew, vertex, edge, close, dangle, center, remove, contract, dual and count. Darts are named by the numbers
// that cellmap gives them; of the new darts of a line only the first is named, and none of a closing. As `run` it asks before each line
// whether it can be obeyed, where CGAL can be asked, and writes cellmap's replies (`no` alone where it cannot be). As `trust` it
// asks nothing, and writes the replies to `count` alone. Neither looks whether a dart that a line names is live.
#include <CGAL/Combinatorial_map.h>
#include <CGAL/Generalized_map.h>

#include <algorithm>
#include <array>
#include <charconv>
#include <cstdint>
#include <cstdio>
#include <cstdlib>
#include <cstring>
#include <fstream>
#include <iterator>
#include <string>
#include <utility>
#include <vector>

struct Point {
  long long x, y, z;
};

struct Items {
  template <class Map>
  struct Dart_wrapper {
    typedef CGAL::Cell_attribute<Map, Point> Vertex;
    typedef std::tuple<Vertex> Attributes;
  };
};

template <unsigned DIM>
using Generalized = CGAL::Generalized_map<DIM, Items>;
template <unsigned DIM>
using Combinatorial = CGAL::Combinatorial_map<DIM, Items>;

static std::string text_of(const char *name) {
  std::ifstream file(name, std::ios::binary);
  if (!file) {
    std::fprintf(stderr, "cannot read %s\n", name);
    std::exit(5);
  }
  return {std::istreambuf_iterator<char>(file), {}};
}

static long long next_number(const char *&at) {
  char *end;
  long long number = std::strtoll(at, &end, 10);
  at = end;
  return number;
}

// the next word, empty at the end
static std::string next_word(const char *&at) {
  while (*at == ' ' || *at == '\n') at++;
  const char *begin = at;
  while (*at && *at != ' ' && *at != '\n') at++;
  return {begin, at};
}

static bool answers;
static char replies[1 << 16];
static char *reply = replies;

static void hand_on() {
  std::fwrite(replies, 1, reply - replies, stdout);
  reply = replies;
}

template <std::size_t LENGTH>
static void put(const char (&word)[LENGTH]) {
  std::memcpy(reply, word, LENGTH - 1);
  reply += LENGTH - 1;
}

static void put(std::size_t number) {
  *reply++ = ' ';
  reply = std::to_chars(reply, reply + 20, number).ptr;
}

// no line is longer than a fourth of what is kept
static void end_line() {
  *reply++ = '\n';
  if (reply - replies > 3 << 14) hand_on();
}

// whether a line is to be obeyed: where it is not, it is refused
static bool obeyed(bool can) {
  if (can) return true;
  put("no");
  end_line();
  return false;
}

// the reply to a line that was obeyed
static void done() {
  if (!answers) return;
  put("ok");
  end_line();
}

static void done(std::size_t first, std::size_t count) {
  if (!answers) return;
  put("ok");
  put(first);
  put(count);
  end_line();
}

// Each kind makes a polygon, whose darts come in the order of their numbers, and joins the sides of two faces.
template <class Map, bool Oriented>
struct Kind;

template <class Map>
struct Kind<Map, false> {
  typedef typename Map::Dart_handle Dart;

  static const std::size_t darts_a_side = 2;

  static void polygon(Map &map, std::size_t sides, std::vector<Dart> &darts) {
    Dart at = map.make_combinatorial_polygon(sides);
    for (std::size_t side = 0; side < sides; side++) {
      darts.push_back(at);
      darts.push_back(map.template alpha<0>(at));
      at = map.template alpha<0, 1>(at);
    }
  }

  // from one end to the other, and from the other end to the one
  static void join(Map &map, Dart one, Dart other) {
    map.template basic_link_alpha<2>(one, map.template alpha<0>(other));
    map.template basic_link_alpha<2>(map.template alpha<0>(one), other);
  }

  static void put_point(Map &map, Dart side, typename Map::template Attribute_handle<0>::type point) {
    map.template set_dart_attribute<0>(side, point);
    map.template set_dart_attribute<0>(map.template alpha<1>(side), point);
  }
};

template <class Map>
struct Kind<Map, true> {
  typedef typename Map::Dart_handle Dart;

  static const std::size_t darts_a_side = 1;

  static void polygon(Map &map, std::size_t sides, std::vector<Dart> &darts) {
    Dart at = map.make_combinatorial_polygon(sides);
    for (std::size_t side = 0; side < sides; side++) {
      darts.push_back(at);
      at = map.template beta<1>(at);
    }
  }

  static void join(Map &map, Dart one, Dart other) { map.template basic_link_beta_for_involution<2>(one, other); }

  static void put_point(Map &map, Dart side, typename Map::template Attribute_handle<0>::type point) {
    map.template set_dart_attribute<0>(side, point);
  }
};

template <class Map, bool Oriented>
struct Machine {
  typedef Kind<Map, Oriented> Of;
  typedef typename Map::Dart_handle Dart;

  static const unsigned DIM = Map::dimension;

  Map map;
  // the dart of number n stands at place n
  std::vector<Dart> darts = std::vector<Dart>(1);

  struct Side {
    std::uint64_t key;
    Dart dart;
    bool turned;
  };

  void load(const std::string &text) {
    const char *at = text.c_str() + 3;
    std::size_t points = next_number(at), faces = next_number(at);
    next_number(at);
    std::vector<typename Map::template Attribute_handle<0>::type> values(points);
    for (auto &value : values) {
      Point point;
      point.x = next_number(at);
      point.y = next_number(at);
      point.z = next_number(at);
      value = map.template create_attribute<0>(point);
    }
    std::vector<Side> sides;
    std::vector<std::size_t> corners;
    for (std::size_t face = 0; face < faces; face++) {
      corners.resize(next_number(at));
      for (auto &corner : corners) corner = next_number(at);
      std::size_t first = darts.size();
      Of::polygon(map, corners.size(), darts);
      for (std::size_t place = 0; place < corners.size(); place++) {
        Dart dart = darts[first + place * Of::darts_a_side];
        std::uint64_t from = corners[place], to = corners[(place + 1) % corners.size()];
        Of::put_point(map, dart, values[from]);
        sides.push_back({std::min(from, to) << 32 | std::max(from, to), dart, to < from});
      }
    }
    std::sort(sides.begin(), sides.end(), [](const Side &a, const Side &b) { return a.key < b.key; });
    for (std::size_t place = 0; place + 1 < sides.size(); place++)
      if (sides[place].key == sides[place + 1].key) Of::join(map, sides[place].dart, sides[place + 1].dart);
  }

  // names the first of the new darts, and leaves the numbers of the others without a dart
  void name_new(std::size_t before, Dart first) {
    std::size_t named = darts.size(), births = map.number_of_darts() - before;
    darts.push_back(first);
    darts.resize(named + births);
    done(named, births);
  }

  bool can_sew(long long link, Dart one, Dart other) {
    if (link == 1) return map.template is_sewable<1>(one, other);
    if (link == 2) return map.template is_sewable<2>(one, other);
    if constexpr (DIM >= 3)
      if (link == 3) return map.template is_sewable<3>(one, other);
    return false;
  }

  bool can_unsew(long long link, Dart dart) {
    if (link == 1) return !map.template is_free<1>(dart);
    if (link == 2) return !map.template is_free<2>(dart);
    if constexpr (DIM >= 3)
      if (link == 3) return !map.template is_free<3>(dart);
    return false;
  }

  bool can_remove(long long dim, Dart dart) {
    if (dim == 0) return map.template is_removable<0>(dart);
    if (dim == 1) return map.template is_removable<1>(dart);
    if (dim == 2) return map.template is_removable<2>(dart);
    return false;
  }

  bool can_contract(long long dim, Dart dart) {
    if (dim == 1) return map.template is_contractible<1>(dart);
    if (dim == 2) return map.template is_contractible<2>(dart);
    return false;
  }

  void sew(long long link, Dart one, Dart other) {
    if (link == 1) map.template sew<1>(one, other);
    if (link == 2) map.template sew<2>(one, other);
    if constexpr (DIM >= 3)
      if (link == 3) map.template sew<3>(one, other);
  }

  void unsew(long long link, Dart dart) {
    if (link == 1) map.template unsew<1>(dart);
    if (link == 2) map.template unsew<2>(dart);
    if constexpr (DIM >= 3)
      if (link == 3) map.template unsew<3>(dart);
  }

  void remove(long long dim, Dart dart) {
    if (dim == 0) map.template remove_cell<0>(dart);
    if (dim == 1) map.template remove_cell<1>(dart);
    if (dim == 2) map.template remove_cell<2>(dart);
  }

  void contract(long long dim, Dart dart) {
    if (dim == 1) map.template contract_cell<1>(dart);
    if (dim == 2) map.template contract_cell<2>(dart);
  }

  void close(long long link) {
    if (link == 2) map.template close<2>();
    if constexpr (DIM >= 3)
      if (link == 3) map.template close<3>();
  }

  void count() {
    std::vector<unsigned> cells = map.count_all_cells();
    put("count");
    put(map.number_of_darts());
    for (unsigned number : cells) put(number);
    end_line();
  }

  void dual() {
    Map other;
    map.dual(other);
    map.swap(other);
  }

  void obey(const std::string &text) {
    const char *at = text.c_str();
    for (std::string word = next_word(at); !word.empty(); word = next_word(at)) {
      std::size_t before = map.number_of_darts();
      if (word == "polygon") {
        std::size_t named = darts.size();
        Of::polygon(map, next_number(at), darts);
        done(named, darts.size() - named);
      } else if (word == "sew") {
        long long link = next_number(at), one = next_number(at), other = next_number(at);
        if (answers && !obeyed(can_sew(link, darts[one], darts[other]))) continue;
        sew(link, darts[one], darts[other]);
        done();
      } else if (word == "unsew") {
        long long link = next_number(at), dart = next_number(at);
        if (answers && !obeyed(can_unsew(link, darts[dart]))) continue;
        unsew(link, darts[dart]);
        done();
      } else if (word == "vertex") {
        Dart dart = darts[next_number(at)];
        name_new(before, map.insert_cell_0_in_cell_1(dart));
      } else if (word == "edge") {
        long long one = next_number(at), other = next_number(at);
        if (answers && !obeyed(map.is_insertable_cell_1_in_cell_2(darts[one], darts[other]))) continue;
        name_new(before, map.insert_cell_1_in_cell_2(darts[one], darts[other]));
      } else if (word == "close") {
        close(next_number(at));
        name_new(before, nullptr);
      } else if (word == "dangle") {
        Dart dart = darts[next_number(at)];
        name_new(before, map.insert_dangling_cell_1_in_cell_2(dart));
      } else if (word == "center") {
        Dart dart = darts[next_number(at)];
        name_new(before, map.insert_cell_0_in_cell_2(dart));
      } else if (word == "remove") {
        long long dim = next_number(at), dart = next_number(at);
        if (answers && !obeyed(can_remove(dim, darts[dart]))) continue;
        remove(dim, darts[dart]);
        done();
      } else if (word == "contract") {
        long long dim = next_number(at), dart = next_number(at);
        if (answers && !obeyed(can_contract(dim, darts[dart]))) continue;
        contract(dim, darts[dart]);
        done();
      } else if (word == "dual") {
        dual();
        done();
      } else if (word == "count") {
        count();
      } else {
        std::fprintf(stderr, "unknown word %s\n", word.c_str());
        std::exit(2);
      }
    }
  }
};

template <class Map, bool Oriented>
static void run(const char *mesh, const char *script) {
  Machine<Map, Oriented> machine;
  if (std::strcmp(mesh, "-")) machine.load(text_of(mesh));
  machine.obey(text_of(script));
  hand_on();
  std::fflush(stdout);
  // the map is not given back piece by piece at the end
  std::_Exit(0);
}

int main(int count, char **words) {
  if (count != 6) return 2;
  answers = !std::strcmp(words[1], "run");
  if (!answers && std::strcmp(words[1], "trust")) return 2;
  bool oriented = !std::strcmp(words[2], "c");
  bool solid = !std::strcmp(words[3], "3");
  if (oriented && solid) run<Combinatorial<3>, true>(words[4], words[5]);
  if (oriented) run<Combinatorial<2>, true>(words[4], words[5]);
  if (solid) run<Generalized<3>, false>(words[4], words[5]);
  run<Generalized<2>, false>(words[4], words[5]);
}
