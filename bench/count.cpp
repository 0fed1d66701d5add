// What the benchmark of counts compares with: 31 polygons of 65,536 sides, and how many darts, cells of each dimension and
// components they have, by a vector of rows, a mark per dart and a list that is its own queue.
#include <cstdio>
#include <vector>

struct Row {
    unsigned links[3];
};

static std::vector<Row> rows(1);

static unsigned orbits(const std::vector<int> &links) {
    std::vector<char> seen(rows.size());
    std::vector<unsigned> found;
    unsigned count = 0;
    for (unsigned dart = 1; dart < rows.size(); dart++) {
        if (seen[dart]) continue;
        count++;
        found.clear();
        found.push_back(dart);
        seen[dart] = 1;
        for (size_t next = 0; next < found.size(); next++)
            for (int link : links) {
                unsigned other = rows[found[next]].links[link];
                if (other && !seen[other]) {
                    seen[other] = 1;
                    found.push_back(other);
                }
            }
    }
    return count;
}

int main() {
    const unsigned sides = 65536;
    for (int polygon = 0; polygon < 31; polygon++) {
        unsigned first = rows.size();
        for (unsigned side = 0; side < sides; side++) {
            unsigned before = side ? side - 1 : sides - 1, after = side + 1 == sides ? 0 : side + 1;
            rows.push_back({{first + 2 * side + 1, first + 2 * before + 1, 0}});
            rows.push_back({{first + 2 * side, first + 2 * after, 0}});
        }
        printf("ok %u %u\n", first, 2 * sides);
    }
    printf("count %zu %u %u %u %u\n", rows.size() - 1, orbits({1, 2}), orbits({0, 2}), orbits({0, 1}), orbits({0, 1, 2}));
}
