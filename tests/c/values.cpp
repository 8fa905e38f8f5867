// Values of an ok buffer as each of the calls of fbcheck::Value has them: values SCHEMA.bfbs BUFFER PATH..
//
// Prints a line for each path: its integer, its number, and its text, escaped; a - for what it hasn't.
#include <fbcheck.hpp>

#include <fstream>
#include <iostream>
#include <iterator>

static std::string all_of(const char *path) {
    std::ifstream file(path, std::ios::binary);
    return {std::istreambuf_iterator<char>(file), {}};
}

int main(int count, char **words) {
    const fbcheck::Schema schema(all_of(words[1]));
    const auto buffer = all_of(words[2]);
    for (int word = 3; word < count; ++word) {
        const auto found = schema.read(buffer, schema.paths(words[word]));
        if (!found) return 1;
        const auto text = found[0].text();
        std::cout << (found[0].integer() ? std::to_string(*found[0].integer()) : "-") << " "
                  << (found[0].number() ? std::to_string(*found[0].number()) : "-") << " "
                  << (text ? "\"" + fbcheck::escaped(*text) + "\"" : "-") << "\n";
    }
}
