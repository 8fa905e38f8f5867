// What doesn't compile with fbcheck.hpp, each with its number as LINE: values of what ends before they are used. The
// others, with the number 0, do compile.
#include <fbcheck.hpp>

static fbcheck::Good moved(fbcheck::Good &&good) { return std::move(good); }

std::size_t length(const fbcheck::Schema &schema, const std::vector<std::uint8_t> &buffer) {
    auto kept = schema.keep(buffer);
    if (!kept) return 0;
    std::size_t all = kept->get("name").bytes().size() + (*kept).get("name").bytes().size();
#if LINE == 1
    all += schema.keep(buffer)->get("name").bytes().size();
#elif LINE == 2
    all += (*schema.keep(buffer)).get("name").bytes().size();
#elif LINE == 3
    all += schema.keep(buffer).value().get(fbcheck::Path{}).bytes().size();
#elif LINE == 4
    all += moved(std::move(*kept)).get(fbcheck::Path{}).bytes().size();
#elif LINE == 5
    all += moved(std::move(*kept)).get(std::array<fbcheck::Path, 2>{})[1].bytes().size();
#elif LINE == 6
    all += moved(std::move(*kept)).bytes().size();
#elif LINE == 7
    all += kept->release().size();
#elif LINE == 8
    fbcheck::Framer(64, fbcheck::Framing::Prefixed).feed(buffer, [](fbcheck::Bytes) { return false; });
#endif
    return all + moved(std::move(*kept)).release().size();
}
