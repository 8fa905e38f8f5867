// Checks one buffer against a schema file: check [--prefixed] SCHEMA.bfbs BUFFER [ROOT]
//
//     c++ -std=c++17 check.cpp $(pkg-config --cflags --libs fbcheck) -o check
//
// With --prefixed, the buffer begins with its prefix, as each message of examples/deliveries.bin does. The first of
// these has 512 bytes, and is ok:
//
//     head -c 512 examples/deliveries.bin > first.bin
//     ./check --prefixed examples/deliveries.bfbs first.bin
#include <fbcheck.hpp>

#include <fstream>
#include <iostream>
#include <iterator>
#include <vector>

// The bytes of a file. Throws an exception with its name if it can't be read.
static std::vector<char> bytes_of(const char *path) try {
    std::ifstream file;
    file.exceptions(std::ios::failbit);
    file.open(path, std::ios::binary);
    return {std::istreambuf_iterator<char>(file), std::istreambuf_iterator<char>()};
} catch (const std::ios::failure &) {
    throw std::runtime_error(std::string(path) + " can't be read");
}

int main(int count, char **words) try {
    const bool prefixed = count > 1 && words[1] == std::string("--prefixed");
    count -= prefixed, words += prefixed;
    if (count < 3 || count > 4) throw std::runtime_error("usage: check [--prefixed] SCHEMA.bfbs BUFFER [ROOT]");
    const auto file = bytes_of(words[1]);
    const auto buffer = bytes_of(words[2]);
    fbcheck::Schema schema(file, fbcheck::Options(prefixed ? fbcheck::Framing::Prefixed : fbcheck::Framing::Delimited));
    if (count == 4) schema.choose_root(words[3]);
    const fbcheck::Verdict verdict = schema.check(buffer);
    std::cout << verdict << "\n";
    return verdict ? 0 : 1;
} catch (const std::exception &error) {
    std::cerr << "check: " << error.what() << "\n";
    return 2;
}
