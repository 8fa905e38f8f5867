// The messages of a stream in pieces, and a value of each: reads SCHEMA.bfbs PATH PIECE_LENGTH MOST [FRAMING [LAST]]
//
// Each message gets the line of the program with --names and --path, where a Float or Double is a decimal number. What
// is thrown is told on standard error. FRAMING is "delimited", or another word; LAST is the number of the last message,
// behind which the stream is left.
#include <fbcheck.hpp>

#include <fstream>
#include <iostream>
#include <iterator>

static std::string all_of(std::istream &&stream) { return {std::istreambuf_iterator<char>(stream), {}}; }

static std::string words_of(const fbcheck::Value &value) {
    const auto hexadecimal = [&value] {
        std::string digits;
        for (const auto byte : value.bytes()) {
            digits += "0123456789abcdef"[byte >> 4];
            digits += "0123456789abcdef"[byte & 15];
        }
        return digits;
    };
    switch (value.kind()) {
        case FBCHECK_ABSENT: return "absent";
        case FBCHECK_NO_ELEMENT: return "no-element";
        case FBCHECK_OTHER_MEMBER: return "other-member";
        case FBCHECK_BOOL: return *value.number() ? "true" : "false";
        case FBCHECK_INT: return std::to_string(*value.integer());
        case FBCHECK_UINT: return std::to_string(*value.number());
        case FBCHECK_FLOAT:
        case FBCHECK_DEFAULT_FLOAT: return "real:" + std::to_string(*value.real());
        case FBCHECK_TEXT: return "\"" + fbcheck::escaped(*value.text()) + "\"";
        case FBCHECK_STRUCT: return "struct:" + hexadecimal();
        case FBCHECK_VECTOR: return "vector:" + std::to_string(*value.number());
        case FBCHECK_TABLE: return "table";
        case FBCHECK_UNION: return "union:" + std::to_string(*value.number());
    }
    return "?";
}

static void demand(bool is, const char *what) {
    if (!is) throw std::logic_error(what);
}

// The Misuse that a call throws, or one of FBCHECK_OK.
template <class Call> static fbcheck::Misuse misuse(Call &&call) try {
    return call(), fbcheck::Misuse(FBCHECK_OK);
} catch (const fbcheck::Misuse &error) {
    return error;
}

// Without a message options and paths may be tried, and paths() has what path() has.
static void try_before(const fbcheck::Schema &schema, const std::string &text) {
    fbcheck::Options options;
    const auto path = schema.path(text);
    auto twice = schema.paths(text, text.c_str());
    for (const auto &one : {twice[0], twice[1], schema.paths(options, std::string_view(text))[0]})
        demand(std::memcmp(&one, &path, sizeof path) == 0, "paths() differs");
    demand(!schema.check({nullptr, 0}, options) && !schema.read({nullptr, 0}, twice, options), "no bytes are good");
    twice[1] = {1, 0, {{1, 9999}}};
    const auto wrong = misuse([&] { schema.read({nullptr, 0}, twice); });
    demand(wrong.status == FBCHECK_MISFIT && wrong.at == 1, "a wrong path passes");
    demand(std::string(wrong.what()).find("from this root: paths[1]") != std::string::npos, "it isn't told in words");
    options.max_depth = FBCHECK_DEEP + 1;
    demand(misuse([&] { schema.check({nullptr, 0}, options); }).status == FBCHECK_OUT_OF_RANGE, "a wrong depth passes");
    demand(!schema.keep({nullptr, 0}, options), "no bytes are kept");
    options.max_depth = FBCHECK_DEEPEST + 1;
    demand(misuse([&] { schema.keep({nullptr, 0}, options); }).status == FBCHECK_OUT_OF_RANGE, "a wrong depth is kept");
}

static bool same(const fbcheck::Value &first, const fbcheck::Value &second) {
    const auto bytes = [](const fbcheck::Value &value) {
        return std::string_view(reinterpret_cast<const char *>(value.bytes().data()), value.bytes().size());
    };
    return std::memcmp(&first.told(), &second.told(), sizeof(fbcheck_value)) == 0 && bytes(first) == bytes(second);
}

// A good message that is kept has the values that read() has, whatever becomes of the message and the Schema.
static void try_kept(const std::string &file, const std::string &text, fbcheck::Bytes message,
                     fbcheck::Options options, const fbcheck::Reading<2> &found) {
    std::string bytes(message.begin(), message.end());
    auto schema = std::make_unique<fbcheck::Schema>(file);
    const auto path = schema->path(text);
    auto kept = schema->keep(bytes, options);
    options.max_depth = 1000;
    const auto deep = schema->keep(bytes, options);
    demand(bool(kept) == bool(found) && bool(deep) == bool(found), "keep() differs");
    if (!found) return;
    std::fill(bytes.begin(), bytes.end(), '\xff');
    const auto moved = std::move(*schema);
    demand(same(kept->get(path), found[1]), "the Schema was moved from");
    schema.reset();
    const auto copy = *kept;
    const auto value = kept->get(text), whole = kept->get(fbcheck::Path{});
    const auto taken = std::move(*kept);
    demand(same(value, found[1]) && whole.kind() == FBCHECK_TABLE, "a text, and a Good that was moved");
    demand(same(taken.get(path), found[1]) && same(copy.get(path), found[1]), "where it was moved or copied to");
    demand(same(deep->get(path), found[1]), "with room for more tables");
    demand(misuse([&] { kept->get(path); }).status == FBCHECK_NULL, "what was moved from has values");
    demand(misuse([&] { copy.get(fbcheck::Path{1, 0, {{1, 9999}}}); }).status == FBCHECK_MISFIT, "a wrong path is read");
    demand(copy.bytes().size() == message.size() && copy.bytes().data() != message.data(), "it isn't a copy");
}

static void tell(const fbcheck::Schema &schema, const std::string &file, const std::string &text,
                 fbcheck::Bytes message, bool prefixed) {
    static fbcheck::Scratch scratch(FBCHECK_DEEP);
    static int count = 0;
    const std::array paths{fbcheck::Path{}, schema.path(text)};
    fbcheck::Options options;
    options.prefixed = prefixed;
    const auto found = schema.read(message, paths, options, &scratch);
    std::cout << ++count << " " << found.verdict;
    if (found) std::cout << " " << words_of(found[1]);
    std::cout << "\n";
    demand(!found || (found[0].kind() == FBCHECK_TABLE && found[0]), "the root is no table");
    demand(!found || bool(found[1]) == (found[1].kind() > FBCHECK_OTHER_MEMBER), "its truth");
    demand(!found || !found[1].text() || !found[1].integer(), "it is of two kinds");
    demand(bool(found) == schema.good(message, options), "good() differs");
    try_kept(file, text, message, options, found);
    demand(reinterpret_cast<std::uintptr_t>(message.data()) % 8 == 0, "it isn't aligned");
}

int main(int number, char **words) try {
    const auto file = all_of(std::ifstream(words[1], std::ios::binary));
    const fbcheck::Schema schema(file);
    try_before(schema, words[2]);
    const bool bare = number > 5 && words[5] == std::string("delimited");
    int left = number > 6 ? std::stoi(words[6]) : 0;
    fbcheck::Framer framer(std::stoul(words[4]), bare ? fbcheck::Framing::Delimited : fbcheck::Framing::Prefixed);
    const auto each = [&](fbcheck::Bytes message) { tell(schema, file, words[2], message, !bare); };
    const auto each_of_some = [&](fbcheck::Bytes message) { return each(message), --left > 0; };
    const bool some = left > 0;
    std::string piece(std::stoul(words[3]), 0);
    while (std::cin.read(piece.data(), std::streamsize(piece.size())) || std::cin.gcount() > 0) {
        const std::string_view given(piece.data(), std::size_t(std::cin.gcount()));
        if (some)
            static_cast<void>(framer.feed(given, each_of_some));
        else
            framer.feed(given, each);
        if (some && left == 0) return 0;
    }
    framer.finish();
    return 0;
} catch (const std::exception &error) {
    std::cerr << error.what() << "\n";
    return 2;
}
