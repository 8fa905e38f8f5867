// How often the classes of fbcheck.hpp go through a buffer: once for a verdict with its place, once for a yes or no,
// once for the values of a good one, and twice for a bad one that is read; once for one that is kept, whatever is read of
// it then. Its words are a schema and a buffer.
#include <fbcheck.h>

#include <cstdint>
#include <fstream>
#include <iostream>
#include <iterator>

static int calls;

static std::uint32_t counted(std::uint32_t status) {
    ++calls;
    return status;
}

#define fbcheck_verify(...) counted(fbcheck_verify(__VA_ARGS__))
#define fbcheck_locate(...) counted(fbcheck_locate(__VA_ARGS__))
#define fbcheck_read(...) counted(fbcheck_read(__VA_ARGS__))
#include <fbcheck.hpp>

static std::string bytes(const char *path) {
    std::ifstream file(path, std::ios::binary);
    return std::string(std::istreambuf_iterator<char>(file), {});
}

// What a call tells, and of how many calls of the library it is made.
template <class Told> static void tell(const Told &told) {
    std::cout << told << " by " << calls << "\n";
    calls = 0;
}

int main(int, char **words) {
    const fbcheck::Schema schema(bytes(words[1]));
    const std::string buffer = bytes(words[2]);
    tell(schema.check(buffer));
    tell(schema.good(buffer));
    tell(schema.read(buffer, schema.paths("next")).verdict);
    const auto kept = schema.keep(buffer);
    for (int count = 0; kept && count < 3; ++count)
        if (kept->get("next").kind() != FBCHECK_TABLE) return 3;
    tell(bool(kept));
}
