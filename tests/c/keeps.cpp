// Buffers that are kept, and read again: keeps SCHEMA.bfbs BUFFER PATH PATH. The buffer is ok, and the schema's root is
// the table that it has.
#include <fbcheck.hpp>

#include <fstream>
#include <iostream>
#include <iterator>

static std::vector<std::uint8_t> all_of(const char *path) {
    std::ifstream file(path, std::ios::binary);
    return {std::istreambuf_iterator<char>(file), {}};
}

static void demand(bool is, const char *what) {
    if (!is) throw std::logic_error(what);
}

static bool same(const fbcheck::Value &first, const fbcheck::Value &second) {
    const auto bytes = [](const fbcheck::Value &value) {
        return std::string(value.bytes().begin(), value.bytes().end());
    };
    return std::memcmp(&first.told(), &second.told(), sizeof(fbcheck_value)) == 0 && bytes(first) == bytes(second);
}

// The status of the Misuse that a call throws, or FBCHECK_OK.
template <class Call> static std::uint32_t misuse(Call &&call) try {
    return call(), std::uint32_t(FBCHECK_OK);
} catch (const fbcheck::Misuse &error) {
    return error.status;
}

// A vector is taken if it is ok, and given back, without a copy; a bad one is left as it is.
static void try_taking(const fbcheck::Schema &schema, const std::vector<std::uint8_t> &buffer,
                       const std::array<fbcheck::Path, 2> &paths, const fbcheck::Options &options) {
    auto given = buffer;
    const auto *const at = given.data();
    auto kept = schema.keep(std::move(given), options);
    demand(kept && kept->bytes().data() == at, "it is copied");
    const auto values = kept->get(paths), read = schema.read(buffer, paths, options).values;
    demand(same(values[0], read[0]) && same(values[1], read[1]), "its values differ");
    demand(same(kept->get(paths[1]), read[1]) && same((*kept).get(paths[1]), read[1]), "one of them differs");
    const auto other = schema.keep(buffer, options);
    demand(other && other->bytes().data() != buffer.data(), "an lvalue isn't copied");
    std::optional<fbcheck::Good> plain = schema.keep(buffer, options);
    demand(plain && same(plain->get(paths[0]), read[0]), "as an optional");
    const auto &lives = *schema.keep(buffer, options), &lives_too = schema.keep(buffer, options).value();
    demand(same(lives.get(paths[0]), read[0]) && same(lives_too.get(paths[1]), read[1]), "out of what has ended");
    demand(same(kept.value().get(paths[0]), read[0]) && same(other.value().get(paths[0]), read[0]), "by value()");
    const auto released = std::move(*kept).release();
    demand(released.data() == at && released == buffer, "its bytes aren't given back");
    demand(misuse([&] { kept->get(paths); }) == FBCHECK_CHANGED, "values of bytes that were given back");
    auto bad = buffer;
    bad.pop_back();
    const auto before = bad;
    demand(!schema.keep(std::move(bad), options) && bad == before, "a bad one is taken");
    demand(!schema.check(bad, options), "and then it isn't bad");
}

// With room for more tables, from a scratch that is given, and from one of its own.
static void try_rooms(const fbcheck::Schema &schema, const std::vector<std::uint8_t> &buffer,
                      fbcheck::Options options) {
    fbcheck::Scratch scratch(1000), little(8);
    options.max_depth = 1000;
    demand(bool(schema.keep(buffer, options, &scratch)) && bool(schema.keep(buffer, options)), "with more room");
    demand(misuse([&] { schema.keep(buffer, options, &little); }) == FBCHECK_OUT_OF_RANGE, "with less room");
}

// What is read again of a buffer as it was, and of what becomes of it.
static void try_again(const fbcheck::Schema &schema, std::vector<std::uint8_t> buffer,
                      const std::array<fbcheck::Path, 2> &paths, const fbcheck::Options &options) {
    const auto read = schema.read(buffer, paths, options).values;
    const auto again = schema.read_again(buffer, paths, options);
    demand(again && same((*again)[0], read[0]) && same((*again)[1], read[1]), "values that are read again differ");
    demand(same(schema.read_again(buffer, paths[1], options).value(), read[1]), "one that is read again differs");
    demand(bool(schema.read_again(buffer, std::array<fbcheck::Path, 0>{}, options)), "no paths at all");
    demand(!schema.read_again({nullptr, 0}, paths, options), "no bytes have values");
    demand(!schema.read_again({buffer.data(), 8}, paths[0], options), "its first bytes have values");
    const fbcheck::Path wrong{1, 0, {{1, 9999}}};
    demand(misuse([&] { schema.read_again(buffer, std::array{paths[0], wrong}, options); }) == FBCHECK_MISFIT, "fits");
    std::size_t changed = 0, sum = 0;
    for (auto &byte : buffer) {
        byte = std::uint8_t(~byte);
        const auto bent = schema.read_again(buffer, paths, options);
        changed += bent ? 0U : 1U;
        for (const auto &value : bent ? *bent : decltype(read)())
            for (const auto one : value.bytes()) sum += one;
        byte = std::uint8_t(~byte);
    }
    demand(changed > 0, "no change shows");
    demand(sum > 0 || read[0].bytes().size() + read[1].bytes().size() == 0, "there are no bytes");
}

int main(int, char **words) try {
    const auto file = all_of(words[1]), buffer = all_of(words[2]);
    const fbcheck::Schema schema(file);
    const auto paths = schema.paths(words[3], words[4]);
    fbcheck::Options options;
    options.prefixed = 1;
    try_taking(schema, buffer, paths, options);
    try_rooms(schema, buffer, options);
    try_again(schema, buffer, paths, options);
} catch (const std::exception &error) {
    std::cerr << error.what() << "\n";
    return 2;
}
