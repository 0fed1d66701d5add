// The same work in plain C++: reads a mesh in OFF text into lists of points and corners, and writes it again, and says how many
// milliseconds of processor time the writing took. With CGAL it is a combinatorial map with points that is read and written: its
// points as they are stored, and a face for each first dart without a mark.
#include <array>
#include <cstddef>
#include <ctime>
#include <fstream>
#include <iostream>
#include <string>
#include <vector>
#ifdef WITH_CGAL
#include <CGAL/Linear_cell_complex_constructors.h>
#include <CGAL/Linear_cell_complex_for_combinatorial_map.h>
#include <unordered_map>
#endif

static double milliseconds() { return 1000.0 * static_cast<double>(std::clock()) / CLOCKS_PER_SEC; }

#ifdef WITH_CGAL
using Map = CGAL::Linear_cell_complex_for_combinatorial_map<2, 3>;

static Map read(std::istream &in) {
  Map map;
  CGAL::load_off(map, in);
  return map;
}

static void write(Map &map, std::ostream &out) {
  std::vector<Map::Dart_handle> faces;
  const auto mark = map.get_new_mark();
  for (auto dart = map.darts().begin(); dart != map.darts().end(); ++dart) {
    if (map.is_marked(dart, mark)) continue;
    faces.push_back(dart);
    for (auto each = map.darts_of_cell<2>(dart).begin(); each.cont(); ++each) map.mark(each, mark);
  }
  map.free_mark(mark);
  std::unordered_map<const void *, std::size_t> places;
  out << "OFF\n" << map.vertex_attributes().size() << ' ' << faces.size() << " 0\n";
  for (auto point = map.vertex_attributes().begin(); point != map.vertex_attributes().end(); ++point) {
    places.emplace(&*point, places.size());
    out << point->point()[0] << ' ' << point->point()[1] << ' ' << point->point()[2] << '\n';
  }
  for (const auto &face : faces) {
    std::size_t corners = 0;
    std::string line;
    for (auto each = map.darts_of_orbit<1>(face).begin(); each.cont(); ++each, ++corners)
      line += ' ' + std::to_string(places[&*map.attribute<0>(each)]);
    out << corners << line << '\n';
  }
}
#else
struct Map {
  std::vector<std::array<long, 3>> points;
  std::vector<std::vector<unsigned>> faces;
};

static Map read(std::istream &in) {
  std::string header;
  std::size_t points, faces, edges;
  in >> header >> points >> faces >> edges;
  Map map{std::vector<std::array<long, 3>>(points), std::vector<std::vector<unsigned>>(faces)};
  for (auto &point : map.points) in >> point[0] >> point[1] >> point[2];
  for (auto &face : map.faces) {
    std::size_t corners;
    in >> corners;
    face.resize(corners);
    for (auto &corner : face) in >> corner;
  }
  return map;
}

static void write(Map &map, std::ostream &out) {
  out << "OFF\n" << map.points.size() << ' ' << map.faces.size() << " 0\n";
  for (const auto &point : map.points) out << point[0] << ' ' << point[1] << ' ' << point[2] << '\n';
  for (const auto &face : map.faces) {
    out << face.size();
    for (unsigned corner : face) out << ' ' << corner;
    out << '\n';
  }
}
#endif

int main(int, char **argv) {
  std::ifstream in(argv[1]);
  Map map = read(in);
  const double begun = milliseconds();
  std::ofstream out(argv[2]);
  write(map, out);
  out.close();
  std::cout << static_cast<int>(milliseconds() - begun + 0.5) << '\n';
}
