// The elements to which paths with [*] lead in a buffer that is kept: each SCHEMA.bfbs BUFFER PATH..
//
// Each value is that of get() at the path with its index, by a loop, by iterators, and behind a copy of the elements.
// Prints how many elements each path leads to.
#include <fbcheck.hpp>

#include <fstream>
#include <iostream>
#include <iterator>

static std::string all_of(std::ifstream &&stream) { return {std::istreambuf_iterator<char>(stream), {}}; }

static void demand(bool is, const char *what) {
    if (!is) throw std::logic_error(what);
}

static bool same(const fbcheck::Value &first, const fbcheck::Value &second) {
    return std::memcmp(&first.told(), &second.told(), sizeof(fbcheck_value)) == 0 &&
           first.bytes().data() == second.bytes().data();
}

static std::size_t count_of(const fbcheck::Good &good, const std::string &text) {
    const auto star = text.find('*');
    auto elements = good.each(good.bytes().size() % 2 ? text : std::string_view(text));
    std::size_t place = 0;
    for (const auto value : elements) {
        auto one = text;
        one.replace(star, 1, std::to_string(place++));
        demand(same(value, good.get(one)), "an element isn't what get() tells");
    }
    demand(place == elements.size() && elements.empty() == (place == 0), "another count of elements");
    const std::vector<fbcheck::Value> all(elements.begin(), elements.end());
    auto copy = elements;
    auto at = copy.begin();
    for (const auto &value : all) demand(same(value, *at++), "an iterator tells another value");
    demand(at == copy.end() && !(at != copy.end()), "an iterator doesn't end");
    return place;
}

template <class Error, class Call> static Error caught(Call &&call) try {
    call();
    throw std::logic_error("nothing was thrown");
} catch (const Error &error) {
    return error;
}

int main(int number, char **words) try {
    const fbcheck::Schema schema(all_of(std::ifstream(words[1], std::ios::binary)));
    const auto kept = schema.keep(all_of(std::ifstream(words[2], std::ios::binary)));
    if (!kept) return 3;
    for (int at = 3; at < number; ++at) std::cout << count_of(*kept, words[at]) << "\n";
    const std::string text = words[3], one = std::string(text).replace(text.find('*'), 1, "0");
    const auto path = schema.path(text);
    demand(caught<fbcheck::Misuse>([&] { kept->each(one); }).status == FBCHECK_MISFIT, "a path without [*] is taken");
    demand(caught<fbcheck::Misuse>([&] { kept->get(path); }).status == FBCHECK_MISFIT, "a path with [*] has a value");
    demand(caught<fbcheck::PathError>([&] { kept->each(text + "[*]"); }).verdict.reason == FBCHECK_BAD_TEXT, "two [*]");
    return 0;
} catch (const std::exception &error) {
    std::cerr << error.what() << "\n";
    return 2;
}
