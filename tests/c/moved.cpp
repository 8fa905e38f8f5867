// What a Schema or a Framer of fbcheck.hpp holds goes with it when it is moved: moved SCHEMA.bfbs GOOD_BUFFER
//
// Prints the answers of each of two Schemas, those with room of their own, and the name of the schema's first object;
// then what is told of a Schema and a Framer that were moved from, and of the Framer that has what was moved.
#include <fbcheck.hpp>

#include <fstream>
#include <iostream>
#include <iterator>
#if __cplusplus >= 202002L
#include <span>
#endif
#include <vector>

static std::vector<std::byte> bytes_of(const char *path) {
    std::ifstream file(path, std::ios::binary);
    std::vector<std::byte> bytes;
    for (std::istreambuf_iterator<char> at(file), end; at != end; ++at) bytes.push_back(std::byte(*at));
    return bytes;
}

int main(int, char **words) {
    const auto file = bytes_of(words[1]), buffer = bytes_of(words[2]);
    fbcheck::Options options;
    const auto answer = [&](const fbcheck::Schema &schema, fbcheck::Scratch *scratch = nullptr) {
        try {
            std::cout << schema.good(buffer.data(), buffer.size(), options, scratch) << " ";
        } catch (const fbcheck::Misuse &misuse) {
            std::cout << "misuse " << misuse.status << " ";
        }
    };
    fbcheck::Schema first(file.data(), file.size());
    fbcheck::Schema second(std::move(first));
    answer(first), answer(second);
    first = std::move(second);
    answer(first), answer(second);
    first = fbcheck::Schema(file.data(), file.size());
    answer(first);
    fbcheck::Scratch scratch(1000);
    options.max_depth = 1000;
    answer(first), answer(first, &scratch);
#if __cplusplus >= 202002L
    std::cout << bool(first.check(std::span(buffer), {}, &scratch)) << first.good(std::span(buffer).first(4)) << " ";
#endif
    fbcheck::Framer framer(64, fbcheck::Framing::Delimited);
    fbcheck::Framer taken(std::move(framer));
    const auto told = [&](auto &&call) {
        try {
            call();
        } catch (const std::exception &error) {
            std::cout << error.what() << "\n";
        }
    };
    char name[16];
    std::cout << std::string(name, fbcheck_object_name(first.get(), 0, name, sizeof name)) << "\n";
    told([&] { second.check(buffer); });
    told([&] { framer.feed(fbcheck::Bytes("\0", 1), [](fbcheck::Bytes) {}); });
    told([&] { framer.finish(); });
    taken.feed(fbcheck::Bytes("\4", 1), [](fbcheck::Bytes) {});
    told([&] { taken.finish(); });
}
