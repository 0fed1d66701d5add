// What the benchmark compares with: 31 polygons of 65,536 sides and their listing, printed with a buffer.
#include <charconv>
#include <unistd.h>
#include <vector>

struct Row {
    unsigned links[3];
};

static char buffer[1 << 16];
static size_t used = 0;

static void flush() {
    for (size_t done = 0; done < used;) {
        ssize_t count = write(1, buffer + done, used - done);
        if (count <= 0) _exit(6);
        done += count;
    }
    used = 0;
}

static void put(unsigned number) {
    used = std::to_chars(buffer + used, buffer + sizeof buffer, number).ptr - buffer;
}

static void put(const char *text) {
    while (*text) buffer[used++] = *text++;
}

int main() {
    const unsigned sides = 65536;
    std::vector<Row> rows(1);
    for (int polygon = 0; polygon < 31; polygon++) {
        unsigned first = rows.size();
        for (unsigned side = 0; side < sides; side++) {
            unsigned before = side ? side - 1 : sides - 1, after = side + 1 == sides ? 0 : side + 1;
            rows.push_back({{first + 2 * side + 1, first + 2 * before + 1, 0}});
            rows.push_back({{first + 2 * side, first + 2 * after, 0}});
        }
        put("ok "); put(first); put(" "); put(2 * sides); put("\n");
    }
    put("cellmap 2 g 2 "); put(rows.size() - 1); put(" "); put(rows.size() - 1); put("\n");
    for (unsigned dart = 1; dart < rows.size(); dart++) {
        if (used > sizeof buffer - 100) flush();
        put(dart); put(":");
        for (unsigned link : rows[dart].links) { put(" "); put(link); }
        put("\n");
    }
    put("end\n");
    flush();
}
