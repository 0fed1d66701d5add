// Writes a script of marks: names N SORT. Of SORT `chosen` the names are alike to a hasher whose seed is fixed; of SORT
// `ordinary` they are as long and as much alike in their letters, and nothing was chosen.
//
// The hasher reads 16 letters, then 16 further ones, and multiplies (state ^ first eight) by (constant ^ last eight), where
// the state comes of the first 16. So names that begin with 16 letters, and go on with eight that are the state after these,
// all have the product 0, whatever the last eight letters are.
#include <cstdint>
#include <cstdio>
#include <cstdlib>
#include <cstring>
#include <string>

static const char letters[] = "abcdefghijklmnopqrstuvwxyz0123456789_";
static const uint64_t initial = 0x243f6a8885a308d3, multiplier = 0x9e3779b97f4a7c15;

static uint64_t word(const char *bytes) {
  uint64_t value;
  std::memcpy(&value, bytes, 8);
  return value;
}

static uint64_t folded(uint64_t a, uint64_t b) {
  unsigned __int128 product = (unsigned __int128)a * b;
  return (uint64_t)product ^ (uint64_t)(product >> 64);
}

// Eight letters, another eight for each number.
static void eight(uint64_t number, char *to) {
  for (int i = 0; i < 8; i++, number /= 37) to[i] = letters[number % 37];
}

static bool is_name(const char *bytes) {
  for (int i = 0; i < 8; i++)
    if (!bytes[i] || !std::strchr(letters, bytes[i])) return false;
  return true;
}

// The first 24 letters of the chosen names.
static std::string chosen() {
  char name[25] = "marknamexxxxxxxxxxxxxxxx";
  for (uint64_t number = 0;; number++) {
    eight(number, name + 8);
    uint64_t state = folded(word(name) ^ (initial + 32), word(name + 8) ^ multiplier);
    std::memcpy(name + 16, &state, 8);
    if (is_name(name + 16)) return name;
  }
}

int main(int count, char **words) {
  if (count != 3) return 1;
  long marks = std::atol(words[1]);
  std::string name = std::strcmp(words[2], "chosen") ? "marknamemarknamemarkname" : chosen();
  char last[9] = "";
  for (long mark = 0; mark < marks; mark++) {
    eight(mark, last);
    std::printf("mark %s%s\n", name.c_str(), last);
  }
  return 0;
}
