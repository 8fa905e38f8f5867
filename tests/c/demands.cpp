// Strict checks by the classes of fbcheck.hpp: demands SCHEMA.bfbs BUFFER
//
// Prints the verdicts of strict checks, by a Schema that was made for them, of one that isn't strict, and of one of
// fields and strings; and then what is thrown by a Schema that wasn't made so, and where the schema file doesn't say
// what its fields of bytes hold.
#include <fbcheck.hpp>

#include <fstream>
#include <iostream>
#include <iterator>

static std::string bytes(const char *path) {
    std::ifstream file(path, std::ios::binary);
    return std::string(std::istreambuf_iterator<char>(file), {});
}

template <class Call> static void tell(Call &&call) try {
    std::cout << call() << "\n";
} catch (const std::exception &error) {
    std::cout << error.what() << "\n";
}

int main(int, char **words) {
    const std::string file = bytes(words[1]), buffer = bytes(words[2]);
    fbcheck::Options strict, marked, others, deep;
    strict.demands = FBCHECK_STRICT | FBCHECK_PLAIN_BYTES;
    marked.demands = FBCHECK_STRICT;
    others.demands = FBCHECK_KNOWN_FIELDS | FBCHECK_UTF8;
    deep.max_depth = FBCHECK_DEEP - 1;
    const fbcheck::Schema schema(file, strict), plain(file);
    fbcheck::Scratch scratch(FBCHECK_DEEP);
    tell([&] { return schema.check(buffer, strict); });
    tell([&] { return schema.check(buffer, strict, &scratch); });
    tell([&] { return schema.check(buffer); });
    tell([&] { return schema.check(buffer, deep); });
    tell([&] { return schema.read(buffer, std::array{fbcheck::Path{}}).verdict; });
    tell([&] { return schema.good(buffer); });
    tell([&] { return plain.check(buffer); });
    tell([&] { return fbcheck::Schema(file, others).check(buffer); });
    tell([&] { return plain.check(buffer, strict); });
    tell([&] { return fbcheck::Schema(file, marked).good(buffer, marked); });
}
