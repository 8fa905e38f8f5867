// What is thrown, and the options that a Schema was made with: texts SCHEMA.bfbs MESSAGE ROOT FILE..
//
// Prints what is thrown for options that are unusable, for a root that isn't there, and by each FILE as a schema. The
// message is an ok one with its prefix, whose table is the schema's own root.
#include <fbcheck.hpp>

#include <fstream>
#include <iostream>
#include <iterator>

static std::string all_of(const char *path) {
    std::ifstream file(path, std::ios::binary);
    return {std::istreambuf_iterator<char>(file), {}};
}

static void demand(bool is, const char *what) {
    if (!is) throw std::logic_error(what);
}

template <class Thrown, class Call> static void tell(Call &&call) try {
    call();
    std::cout << "nothing is thrown\n";
} catch (const Thrown &error) {
    std::cout << error.what() << "\n";
}

// What is thrown for options that can't be used, by a call and, if a schema can't be made with them, then.
static void tell_options(const std::string &file, const std::string &message) {
    const fbcheck::Schema schema(file);
    const auto of = [&](auto &&change, bool made) {
        fbcheck::Options options;
        change(options);
        tell<fbcheck::Misuse>([&] { schema.check(message, options); });
        if (made) tell<fbcheck::Misuse>([&] { fbcheck::Schema(file, options); });
    };
    of([](auto &options) { options.version = 2; }, true);
    of([](auto &options) { options.ident_from = 3; }, true);
    of([](auto &options) { options.demands = FBCHECK_PLAIN_BYTES; }, true);
    of([](auto &options) { options.max_depth = FBCHECK_DEEPEST + 1; }, true);
    of([](auto &options) { options.max_depth = FBCHECK_DEEP + 1; }, false);
    of([](auto &options) { options.root = FBCHECK_NO_TABLE; }, false);
    of([](auto &options) { options.demands = FBCHECK_UTF8; }, false);
    tell<fbcheck::Misuse>([&] { fbcheck::Schema(nullptr, 9); });
}

// Calls that get no options have those of the Schema, and others those that they get.
static void try_own(const std::string &file, const std::string &message, const char *root) {
    const fbcheck::Options of_framer(fbcheck::Framing::Prefixed), bare(fbcheck::Framing::Delimited);
    demand(of_framer.prefixed == 1 && bare.prefixed == 0 && of_framer.version == FBCHECK_VERSION, "the framings");
    fbcheck::Schema schema(file, of_framer);
    const auto path = schema.path("to.name");
    demand(schema.good(message) && schema.check(message) && schema.keep(message), "as the Schema was made");
    demand(!schema.good(message, bare) && !schema.check(message, bare) && !schema.keep(message, bare), "or as asked");
    demand(schema.check(message, {}).text() == schema.check(message).text(), "{} is another");
    const std::vector<fbcheck::Path> paths{path, schema.path("id"), path};
    const auto found = schema.read(message, paths);
    const auto one = schema.read(message, path);
    demand(found && one && found.values.size() == 3 && one[0].text() == found[0].text() && found[0].text(), "reads");
    demand(found[2].text() == found[0].text() && found[1].told().kind == schema.read(message, paths[1])[0].kind(),
           "each path in its place");
    const auto kept = schema.keep(message);
    demand(kept->get(paths)[2].text() == found[0].text() && kept->get("to.name").text() == one[0].text(), "kept");
    demand(schema.read_again(message, paths).value()[0].text() == one[0].text(), "read again");
    demand(!schema.read_again(message, paths, bare), "read again as bare");
    const auto bad = schema.read(message, paths, bare);
    demand(!bad && bad.values.empty() && schema.read(message, std::vector<fbcheck::Path>()).verdict, "bad, or none");
    std::cout << bad.verdict << "\n";
    demand(schema.root(root) == schema.table(root) && schema.table("nobody") == FBCHECK_NO_TABLE, "the root");
    tell<fbcheck::RootError>([&] { return schema.root("nobody"); });
    tell<fbcheck::RootError>([&] { return schema.root("no\nbody"); });
    schema.choose_root(root);
    tell<fbcheck::PathError>([&] { schema.path("to"); });
    tell<fbcheck::PathError>([&] { schema.path("to\n"); });
    const fbcheck::Schema moved(std::move(schema));
    tell<fbcheck::PathError>([&] { moved.path("to"); });
    tell<fbcheck::Misuse>([&] { return schema.root(root); });
}

int main(int count, char **words) try {
    const auto file = all_of(words[1]), message = all_of(words[2]);
    tell_options(file, message);
    try_own(file, message, words[3]);
    for (int word = 4; word < count; ++word)
        tell<fbcheck::SchemaError>([&] { fbcheck::Schema schema(all_of(words[word])); });
} catch (const std::exception &error) {
    std::cerr << error.what() << "\n";
    return 2;
}
