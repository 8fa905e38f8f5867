// What a callback of a Framer of fbcheck.hpp may do: feeds SCHEMA.bfbs STREAM MOST
//
// The stream's first message is ok. Its messages come in one piece, and in pieces of each length up to 20. Prints what
// is thrown after a callback threw.
#include <fbcheck.hpp>

#include <fstream>
#include <iostream>
#include <iterator>

static std::string all_of(const char *path) {
    std::ifstream file(path, std::ios::binary);
    return {std::istreambuf_iterator<char>(file), {}};
}

static void demand(bool is, const char *what) {
    if (!is) throw std::logic_error(what);
}

template <class Call> static void tell(Call &&call) try {
    call();
    std::cout << "nothing is thrown\n";
} catch (const std::exception &error) {
    std::cout << error.what() << "\n";
}

// Feeds a whole piece to a callback that may pause, as the comment of feed() does.
template <class Each> static void feed_all(fbcheck::Framer &framer, fbcheck::Bytes piece, Each &&each) {
    while (piece.size() > 0) piece = piece.from(framer.feed(piece, each));
}

using Messages = std::vector<std::string>;

// The messages by a callback that returns nothing, in pieces of this length.
static Messages messages_of(fbcheck::Framer &framer, const std::string &stream, std::size_t length) {
    Messages all;
    for (std::size_t at = 0; at < stream.size(); at += length)
        framer.feed(stream.substr(at, length), [&](fbcheck::Bytes one) { all.emplace_back(one.begin(), one.end()); });
    framer.finish();
    return all;
}

// The same by a callback that returns the verdict, and so pauses after each bad message.
static void try_pauses(const fbcheck::Schema &schema, fbcheck::Framer &framer, const std::string &stream,
                       const Messages &want) {
    fbcheck::Options options;
    options.prefixed = 1;
    for (std::size_t length = 1; length <= 20; ++length) {
        Messages all;
        std::size_t bad = 0;
        const auto each = [&](const auto &one) {
            all.emplace_back(one.begin(), one.end());
            const bool good = schema.good(one, options);
            bad += good ? 0 : 1;
            return good;
        };
        for (std::size_t at = 0; at < stream.size(); at += length) feed_all(framer, stream.substr(at, length), each);
        framer.finish();
        demand(all == want && bad > 0 && bad < all.size(), "a pause loses messages");
    }
    std::size_t used = framer.feed(stream, [](fbcheck::Bytes) { return false; });
    demand(used == want[0].size(), "a pause after the first message uses more than that");
    used += framer.feed(fbcheck::Bytes(stream).from(used), [](fbcheck::Bytes) { return true; });
    demand(used == stream.size(), "without a pause not all is used");
    demand(framer.feed(fbcheck::Bytes(nullptr, 0), [](fbcheck::Bytes) { return true; }) == 0, "none of no bytes");
}

int main(int, char **words) try {
    const fbcheck::Schema schema(all_of(words[1]));
    const auto stream = all_of(words[2]);
    fbcheck::Framer framer(std::stoul(words[3]), fbcheck::Framing::Prefixed);
    const auto want = messages_of(framer, stream, stream.size());
    for (std::size_t length = 1; length <= 20; ++length)
        demand(messages_of(framer, stream, length) == want, "pieces differ");
    try_pauses(schema, framer, stream, want);
    const auto fail = [](fbcheck::Bytes) { throw std::runtime_error("thrown by a callback"); };
    const auto fail_or_pause = [](fbcheck::Bytes) -> bool { throw std::runtime_error("thrown by another"); };
    tell([&] { framer.feed(stream, fail); });
    tell([&] { framer.feed(stream, fail); });
    tell([&] { framer.finish(); });
    framer.reset();
    demand(messages_of(framer, stream, 9) == want, "a framer isn't used again");
    tell([&] { return framer.feed(stream, fail_or_pause); });
    tell([&] { return framer.feed(stream, fail_or_pause); });
    framer.reset();
    tell([&] { framer.feed(fbcheck::Bytes("\xff\xff\xff\x7f", 4), fail); });
    framer.reset();
    demand(framer.told().held == 0 && framer.told().declared == 0, "what a stream left is still there");
    demand(messages_of(framer, stream, 9) == want, "after a message that is too long");
} catch (const std::exception &error) {
    std::cerr << error.what() << "\n";
    return 2;
}
