// fbcheck for C++17 and later: a schema that frees itself, verdicts that are true for ok buffers, values and streams.
//
//     const fbcheck::Schema schema(file); // a std::string, a std::vector of bytes, a span
//     if (const auto verdict = schema.check(buffer); !verdict) std::cerr << verdict << "\n";
//
//     const auto paths = schema.paths("to.name", "price");
//     if (const auto found = schema.read(buffer, paths))
//         std::cout << fbcheck::escaped(found[0].text().value_or("")) << " " << found[1].real().value_or(0) << "\n";
//
//     if (const auto good = schema.keep(buffer)) { // a copy, of which values are read one by one
//         std::cout << fbcheck::escaped(good->get("to.name").text().value_or("")) << "\n";
//         for (const auto value : good->each("items[*]@Note"))
//             std::cout << fbcheck::escaped(value.text().value_or("")) << "\n";
//     }
//
//     const fbcheck::Framing framing = fbcheck::Framing::Prefixed; // or Delimited
//     const fbcheck::Schema schema(file, fbcheck::Options(framing)); // these are the options of its calls, too
//     fbcheck::Framer framer(1 << 20, framing); // one for each stream (examples/c/server.cpp)
//     framer.feed(piece, [&](fbcheck::Bytes message) { std::cerr << schema.check(message) << "\n"; });
//
// A text has the bytes that the sender chose: escape it in a log, so that none ends a line or begins another.
//
// A bad buffer doesn't throw. These do, and say why in words: SchemaError (not a usable schema file), RootError (no
// such table), PathError (not a path), StreamError (a stream that can't go on), and Misuse (unusable options or
// arguments: no root table, another version, max_depth beyond the scratch, demands without which the Schema was made, a
// schema that was moved from). std::bad_alloc is thrown too.
//
// Any number of threads may use one const Schema; to replace it while they run, hold it in a std::shared_ptr. A Scratch
// or a Framer must not be used by two calls at once: give each thread its own. For calls of fbcheck.h that aren't
// wrapped here, pass get().
//
// What an ok says, and asks of readers, is at the top of fbcheck.h: above all, a reader uses this schema, and checks a
// union's type before it fetches the value. UnPack() and FIELD_nested_root() need FBCHECK_STRICT; see there for Pack()
// and FIELD_flexbuffer_root(), too. A Schema that is made with demands makes them in each check, whatever the check's
// own options:
//
//     fbcheck::Options strict;
//     strict.demands = FBCHECK_STRICT;
//     const fbcheck::Schema schema(file, strict);
//
// A buffer must not change during a call, nor while its values are read. If others can write to it (shared memory, a
// mapped file), make a private copy, and check and read that.
//
// To try options at the start, call check({nullptr, 0}, options): it throws Misuse if they are unusable. With
// read({nullptr, 0}, paths, options), the same goes for paths. fbcheck.h has numbers for a budget of reads.
#pragma once

#if __cplusplus < 201703L
#error "fbcheck.hpp needs C++17"
#endif

#include <fbcheck.h>

#include <algorithm>
#include <array>
#include <cstddef>
#include <cstdint>
#include <cstring>
#include <iterator>
#include <memory>
#include <new>
#include <optional>
#include <ostream>
#include <stdexcept>
#include <string>
#include <string_view>
#include <type_traits>
#include <utility>
#include <vector>

namespace fbcheck {

// Whether the size before each message of a stream is part of the buffer (Prefixed: FinishSizePrefixed), or precedes a
// bare buffer (Delimited: Finish).
enum class Framing { Prefixed, Delimited };

// What is asked of a buffer; initialised by FBCHECK_OPTIONS_INIT, so for a bare buffer.
struct Options : fbcheck_options {
    Options() noexcept : fbcheck_options FBCHECK_OPTIONS_INIT {}
    // For the messages of a Framer with this framing.
    explicit Options(Framing framing) noexcept : Options() { prefixed = framing == Framing::Prefixed; }
};

// The options of a call: if none are given (or {}), those that the Schema was made with.
class Asked {
  public:
    Asked() noexcept = default;
    Asked(const Options &options) noexcept : options_(&options) {}
    const Options &or_else(const Options &own) const noexcept { return options_ != nullptr ? *options_ : own; }

  private:
    const Options *options_ = nullptr;
};

// A resolved path. It is valid only with the Schema that resolved it; with another one it may be a different field.
using Path = fbcheck_path;

// A view of bytes, which it doesn't own: a pointer and a length, or a container of bytes with data() and size().
class Bytes {
  public:
    Bytes(const void *data, std::size_t size) noexcept : data_(static_cast<const std::uint8_t *>(data)), size_(size) {}
    template <class Of, class = std::enable_if_t<sizeof(*std::declval<const Of &>().data()) == 1>>
    Bytes(const Of &of) noexcept : Bytes(of.data(), of.size()) {}

    const std::uint8_t *data() const noexcept { return data_; }
    std::size_t size() const noexcept { return size_; }
    const std::uint8_t *begin() const noexcept { return data_; }
    const std::uint8_t *end() const noexcept { return data_ + size_; }
    // Without the first count bytes, of which there must be so many.
    Bytes from(std::size_t count) const noexcept { return {data_ + count, size_ - count}; }

  private:
    const std::uint8_t *data_;
    std::size_t size_;
};

// A text as the program prints it between quotes: \" and \\, and \x with two digits for each byte that isn't printable
// ASCII.
inline std::string escaped(std::string_view text) {
    std::string told;
    told.reserve(text.size());
    for (const char one : text) {
        const auto byte = static_cast<unsigned char>(one);
        if (byte < 32 || byte > 126) {
            told.append("\\x").append(1, "0123456789abcdef"[byte >> 4]).append(1, "0123456789abcdef"[byte & 15]);
        } else {
            if (one == '"' || one == '\\') told += '\\';
            told += one;
        }
    }
    return told;
}

// A verdict that isn't FBCHECK_OK in words, with its details, for example "V2 OutOfBuffer at=28 object=1 field=-".
inline std::string why(const fbcheck_verdict &told) {
    const auto part = [](const char *name, std::uint64_t value) { return name + std::to_string(value); };
    const auto place = [&] {
        return part(" object=", told.object) +
               (told.field == FBCHECK_NONE ? std::string(" field=-") : part(" field=", told.field));
    };
    char text[64];
    const std::string name(text, fbcheck_fault_name(told.status, told.reason, text, sizeof text));
    if (told.status == FBCHECK_BAD) return name + part(" at=", told.at) + place();
    if (told.status == FBCHECK_NOT_WELL_FORMED) return name + part(" at=", told.at);
    if (told.status == FBCHECK_BAD_SCHEMA) return name + place();
    if (told.status == FBCHECK_BAD_PATH)
        return name + part(told.reason == FBCHECK_BAD_TEXT ? " at=" : " step=", told.at);
    const std::string words(text, fbcheck_status_text(told.status, text, sizeof text));
    return words.empty() ? part("status ", told.status) : words;
}

// The same for a status alone.
inline std::string why(std::uint32_t status) {
    fbcheck_verdict told{};
    told.status = status;
    return why(told);
}

// A file isn't a usable schema, or doesn't say enough for the demands; verdict has the reason. what() says what the
// file looks like if it is no .bfbs (for example .fbs text), or which field says too little, and what helps.
class SchemaError : public std::runtime_error {
  public:
    explicit SchemaError(const fbcheck_verdict &told, const std::string &more = {})
        : std::runtime_error("no schema: " + why(told) + more), verdict(told) {}
    fbcheck_verdict verdict;
};

// No table has the name that was asked for as root; what() says which names there are.
class RootError : public std::runtime_error {
  public:
    RootError(std::string_view name, const std::string &hint)
        : std::runtime_error("no root table: " + escaped(name) + (hint.empty() ? "" : "; " + hint)) {}
};

// A text isn't a path from the root; verdict has the reason, and the hint says which names there are. The text stands
// escaped in what(), as a name in a RootError.
class PathError : public std::runtime_error {
  public:
    PathError(std::string_view text, const fbcheck_verdict &told, const std::string &hint = {})
        : std::runtime_error("no path: " + escaped(text) + ": " + why(told) + (hint.empty() ? "" : "; " + hint)),
          verdict(told) {}
    fbcheck_verdict verdict;
};

// A stream ended inside a message (FBCHECK_TRUNCATED), a message exceeds the maximum (FBCHECK_OVERSIZE), or the Framer
// was used after such an error or after a callback threw (FBCHECK_FAILED), or after it was moved from (FBCHECK_NULL).
class StreamError : public std::runtime_error {
  public:
    StreamError(std::uint32_t told, const fbcheck_framer &framer)
        : std::runtime_error(why(told) + (told == FBCHECK_OVERSIZE ? ": " + std::to_string(framer.declared) : "") +
                             (told == FBCHECK_NULL ? ", or the framer was moved from" : "")),
          status(told) {}
    std::uint32_t status;
};

// A call with unusable options or arguments: nothing was checked. status is an enum fbcheck_status. With
// FBCHECK_MISFIT, at is the index of the first path that doesn't fit.
class Misuse : public std::logic_error {
  public:
    explicit Misuse(std::uint32_t told, std::uint64_t place = 0, const std::string &more = {})
        : std::logic_error("nothing was checked: " + why(told) +
                           (told == FBCHECK_MISFIT ? ": paths[" + std::to_string(place) + "]" : "") + more),
          status(told), at(place) {}
    // The same for a call with options, of which what() names the unusable one.
    Misuse(std::uint32_t told, std::uint64_t place, const fbcheck_options &options)
        : Misuse(told, place, unusable(told, options)) {}
    std::uint32_t status;
    std::uint64_t at;

  private:
    static std::string unusable(std::uint32_t told, const fbcheck_options &options) {
        const auto member = [](const char *name, std::uint64_t value) {
            return std::string(": ") + name + " is " + std::to_string(value);
        };
        if (told == FBCHECK_NULL) return ", or the schema was moved from";
        if (told == FBCHECK_NO_ROOT && options.root == FBCHECK_NONE) return " of the schema's own, so set root";
        if (told == FBCHECK_OUT_OF_RANGE)
            return member("max_depth", options.max_depth) +
                   (options.max_depth > FBCHECK_DEEPEST ? ", of at most 4096" : ", which needs a Scratch for it");
        if (told != FBCHECK_UNKNOWN_OPTIONS) return {};
        if (options.version != fbcheck_version()) return member("version", options.version);
        if (options.ident_from > FBCHECK_IDENT_OWN) return ", or unknown" + member("ident_from", options.ident_from);
        return ", or unknown" + member("demands", options.demands);
    }
};

// The result for a buffer; converts to true if it is ok.
class Verdict {
  public:
    Verdict(const fbcheck_verdict &told, std::string place, std::string hint = {})
        : told_(told), place_(std::move(place)), hint_(std::move(hint)) {}

    explicit operator bool() const noexcept { return told_.status == FBCHECK_OK; }
    // The numbers: for an ok buffer its counts, else the reason, the position, the object and the field.
    const fbcheck_verdict &told() const noexcept { return told_; }
    // Where the fault is, in words, for example "in items[1]@Note [post.Delivery.items]"; empty for an ok buffer.
    const std::string &place() const noexcept { return place_; }

    // The line of the program with --names, without the message's number; 2^31 bytes or more have a text of their own.
    // If a bad buffer was checked as a bare one, but begins as one with its prefix does, a hint says so.
    std::string text() const {
        const auto reads = " reads=" + std::to_string(told_.reads);
        if (*this)
            return "ok tables=" + std::to_string(told_.tables) + " depth=" + std::to_string(told_.depth) + reads;
        if (told_.status != FBCHECK_BAD) return "bad: it has 2^31 bytes or more";
        return "bad " + why(told_) + reads + " " + place_ + hint_;
    }
    friend std::ostream &operator<<(std::ostream &stream, const Verdict &verdict) { return stream << verdict.text(); }

  private:
    fbcheck_verdict told_;
    std::string place_, hint_;
};

// The value at a path; converts to true if there is one, even if it is 0 or false. Its bytes lie in the buffer, which
// must outlive it.
class Value {
  public:
    Value() noexcept = default;
    Value(const fbcheck_value &told, Bytes buffer) noexcept : told_(told), bytes_(buffer.data() + told.at, told.size) {}

    explicit operator bool() const noexcept { return told_.kind > FBCHECK_OTHER_MEMBER; }
    fbcheck_kind kind() const noexcept { return static_cast<fbcheck_kind>(told_.kind); }
    const fbcheck_value &told() const noexcept { return told_; }

    // Each returns nullopt for values of another kind, too: value_or() takes a mistake about the type for an absent
    // value. If that matters, look at kind().
    std::optional<std::string_view> text() const noexcept {
        if (kind() != FBCHECK_TEXT) return std::nullopt;
        return std::string_view(reinterpret_cast<const char *>(bytes_.data()), bytes_.size());
    }
    // A Bool or a whole number, signed or not; nullopt if it is a ULong of 2^63 or more.
    std::optional<std::int64_t> integer() const noexcept {
        if (kind() == FBCHECK_INT) return told_.integer;
        const bool is = (kind() == FBCHECK_BOOL || kind() == FBCHECK_UINT) && told_.number <= INT64_MAX;
        return is ? std::optional(static_cast<std::int64_t>(told_.number)) : std::nullopt;
    }
    // A Bool or a whole number, signed or not; nullopt if it is negative. Also the count of a vector, the type of a
    // union.
    std::optional<std::uint64_t> number() const noexcept {
        if (kind() == FBCHECK_INT && told_.integer >= 0) return static_cast<std::uint64_t>(told_.integer);
        const bool is = kind() == FBCHECK_BOOL || kind() == FBCHECK_UINT || kind() == FBCHECK_VECTOR ||
                        kind() == FBCHECK_UNION;
        return is ? std::optional(told_.number) : std::nullopt;
    }
    // A Float or Double, or the default of an absent one.
    std::optional<double> real() const noexcept {
        if (kind() == FBCHECK_DEFAULT_FLOAT) return as<double>(&told_.number);
        if (kind() != FBCHECK_FLOAT) return std::nullopt;
        return bytes_.size() == sizeof(float) ? double(as<float>(bytes_.data())) : as<double>(bytes_.data());
    }
    // The bytes of a text, a Float, a Double, a struct, or a vector of scalars or structs; none for other values.
    Bytes bytes() const noexcept { return bytes_; }

  private:
    template <class Number> static Number as(const void *bytes) noexcept {
        Number number;
        std::memcpy(&number, bytes, sizeof number);
        return number;
    }
    fbcheck_value told_{};
    Bytes bytes_{nullptr, 0};
};

// What was read of a buffer; converts to true if it is ok. Then it has the values at the paths, in their order.
template <class Values> struct ReadingOf {
    Verdict verdict;
    Values values;
    explicit operator bool() const noexcept { return bool(verdict); }
    const Value &operator[](std::size_t place) const { return values[place]; }
};
template <std::size_t Count> using Reading = ReadingOf<std::array<Value, Count>>;
// For a number of paths that is only known at run time; empty if the buffer is bad.
using Readings = ReadingOf<std::vector<Value>>;

// The deleter of the library's handles.
struct Free {
    void operator()(fbcheck_schema *schema) const noexcept { fbcheck_schema_free(schema); }
    void operator()(fbcheck_scratch *scratch) const noexcept { fbcheck_scratch_free(scratch); }
};

// Working memory, for any Schema. Needed for depths beyond FBCHECK_DEEP; for tables nested more than three deep it also
// spares each call the clearing of its stack.
class Scratch {
  public:
    explicit Scratch(std::uint32_t depth) : room_(fbcheck_scratch_new(depth)) {
        if (depth > FBCHECK_DEEPEST) throw Misuse(FBCHECK_OUT_OF_RANGE);
        if (room_ == nullptr) throw std::bad_alloc();
    }
    fbcheck_scratch *get() noexcept { return room_.get(); }

  private:
    std::unique_ptr<fbcheck_scratch, Free> room_;
};

class Good;
class Kept;

// A schema, made from the bytes of a schema file, which it copies. Movable, not copyable. The options that it is made
// with (whose limits are for the schema file, too) are those of all calls that get none. Calls that get others have its
// demands nevertheless, and refuse more of them (Misuse).
class Schema {
  public:
    Schema(Schema &&) noexcept = default;
    Schema &operator=(Schema &&) noexcept = default;
    explicit Schema(Bytes file, const Options &options = {}) : own_(options) {
        fbcheck_verdict told;
        schema_.reset(fbcheck_schema_new(file.data(), file.size(), &options, &told), Free());
        if (schema_ != nullptr) return;
        if (told.status == FBCHECK_NO_MEMORY) throw std::bad_alloc();
        if (told.status == FBCHECK_UNKNOWN_OPTIONS || told.status == FBCHECK_OUT_OF_RANGE)
            throw Misuse(told.status, 0, options);
        if (told.status == FBCHECK_NULL) throw Misuse(told.status);
        throw SchemaError(told, told.status == FBCHECK_NOT_WELL_FORMED ? look(file, told)
                                                                      : unplanned(file, options, told));
    }
    Schema(const void *file, std::size_t length, const Options &options = {}) : Schema(Bytes(file, length), options) {}

    // The number of the table of this name, for Options::root. Throws RootError, with the names, if there is none.
    std::uint32_t root(std::string_view name) const {
        const auto number = table(name);
        if (number != FBCHECK_NO_TABLE) return number;
        served(get() == nullptr ? FBCHECK_NULL : FBCHECK_OK, own_);
        char told[FBCHECK_LONGEST_HINT];
        const auto length = fbcheck_root_hint(get(), name.data(), name.size(), told, sizeof told);
        throw RootError(name, std::string(told, length));
    }
    // Makes this table the root of calls that get no options. Do so before other threads use the Schema.
    void choose_root(std::string_view name) { own_.root = root(name); }
    // The number of the table of this name; FBCHECK_NO_TABLE if there is none.
    std::uint32_t table(std::string_view name) const noexcept { return fbcheck_table(get(), name.data(), name.size()); }

    // Resolves a path, for example "items[0]@Parcel.name", from the root that the options ask for.
    Path path(std::string_view text, Asked asked = {}) const {
        const Options &options = asked.or_else(own_);
        Path path;
        fbcheck_verdict told;
        const auto status = fbcheck_resolve(get(), &options, text.data(), text.size(), &path, &told);
        if (status == FBCHECK_NO_MEMORY) throw std::bad_alloc();
        if (status == FBCHECK_BAD_PATH || status == FBCHECK_NO_ROOM)
            throw PathError(text, told, hint(text, options.root));
        return served(status, options), path;
    }

    // Resolves several paths at once, for read().
    template <class... Texts> std::array<Path, sizeof...(Texts)> paths(const Texts &...texts) const {
        return {{path(texts)...}};
    }
    template <class... Texts>
    std::array<Path, sizeof...(Texts)> paths(const Options &options, const Texts &...texts) const {
        return {{path(texts, options)...}};
    }

    // Whether a buffer is ok. It doesn't allocate.
    bool good(Bytes buffer, Asked asked = {}, Scratch *scratch = nullptr) const {
        const Options options = demanding(asked);
        return served(fbcheck_verify(get(), room(scratch), &options, buffer.data(), buffer.size(), nullptr),
                      options) == FBCHECK_OK;
    }
    bool good(const void *buffer, std::size_t length, Asked asked = {}, Scratch *scratch = nullptr) const {
        return good(Bytes(buffer, length), asked, scratch);
    }

    // Checks a buffer in one pass, and returns the verdict with the fault's place in words. If you don't need the
    // place, good() is quicker.
    Verdict check(Bytes buffer, Asked asked = {}, Scratch *scratch = nullptr) const {
        const Options options = demanding(asked);
        fbcheck_verdict told;
        char text[FBCHECK_LONGEST_PLACE];
        std::size_t whole = 0;
        served(fbcheck_locate(get(), room(scratch), &options, buffer.data(), buffer.size(), text, sizeof text, &whole,
                              &told),
               options);
        return Verdict(told, std::string(text, std::min(whole, sizeof text)), begins_prefixed(buffer, options, told));
    }
    Verdict check(const void *buffer, std::size_t length, Asked asked = {}, Scratch *scratch = nullptr) const {
        return check(Bytes(buffer, length), asked, scratch);
    }

    // The same, and for an ok buffer the values at the paths. A bad one is checked a second time, to name the place.
    template <std::size_t Count>
    Reading<Count> read(Bytes buffer, const std::array<Path, Count> &paths, Asked asked = {},
                        Scratch *scratch = nullptr) const {
        std::array<fbcheck_value, Count> found;
        const auto told = find(buffer, paths.data(), found.data(), Count, asked, scratch);
        if (told.status != FBCHECK_OK) return {check(buffer, asked, scratch), {}};
        return {Verdict(told, {}), values_of(found, buffer, std::array<Value, Count>{})};
    }
    Reading<1> read(Bytes buffer, const Path &path, Asked asked = {}, Scratch *scratch = nullptr) const {
        return read(buffer, std::array<Path, 1>{path}, asked, scratch);
    }
    // For a number of paths that is only known at run time. It allocates.
    Readings read(Bytes buffer, const std::vector<Path> &paths, Asked asked = {}, Scratch *scratch = nullptr) const {
        std::vector<fbcheck_value> found(paths.size());
        const auto told = find(buffer, paths.data(), found.data(), found.size(), asked, scratch);
        if (told.status != FBCHECK_OK) return {check(buffer, asked, scratch), {}};
        return {Verdict(told, {}), values_of(found, buffer, std::vector<Value>(found.size()))};
    }

    // Copies a buffer, and keeps the copy if it is ok, to read values of it one by one; nullopt if it is bad. To log
    // each message and keep it, begin with this: then get() values, and check() only what wasn't kept, for the place.
    // So an ok message is checked once.
    Kept keep(Bytes buffer, Asked asked = {}, Scratch *scratch = nullptr) const;
    // The same without a copy: the buffer is taken if it is ok, and left as it is otherwise.
    Kept keep(std::vector<std::uint8_t> &&buffer, Asked asked = {}, Scratch *scratch = nullptr) const;

    // The values at the paths in a buffer that was ok before (with this schema, root and prefixed), without a check;
    // nullopt if it shows that the bytes have changed since. If it doesn't show, these are values by the bytes that are
    // there now. They lie inside the buffer in any case, and nothing outside it is read.
    template <std::size_t Count>
    std::optional<std::array<Value, Count>> read_again(Bytes buffer, const std::array<Path, Count> &paths,
                                                       Asked asked = {}) const {
        std::array<fbcheck_value, Count> found;
        if (!find_again(buffer, paths.data(), found.data(), Count, asked)) return std::nullopt;
        return values_of(found, buffer, std::array<Value, Count>{});
    }
    std::optional<Value> read_again(Bytes buffer, const Path &path, Asked asked = {}) const {
        fbcheck_value found;
        if (!find_again(buffer, &path, &found, 1, asked)) return std::nullopt;
        return Value(found, buffer);
    }
    std::optional<std::vector<Value>> read_again(Bytes buffer, const std::vector<Path> &paths,
                                                 Asked asked = {}) const {
        std::vector<fbcheck_value> found(paths.size());
        if (!find_again(buffer, paths.data(), found.data(), found.size(), asked)) return std::nullopt;
        return values_of(found, buffer, std::vector<Value>(found.size()));
    }

    // The handle for the calls of fbcheck.h; it is freed with this Schema and with what it keeps.
    const fbcheck_schema *get() const noexcept { return schema_.get(); }

  private:
    friend class Good;
    Schema(const Schema &) = default;
    // What a file looks like that isn't a well-formed schema; empty if it may be a damaged one.
    static std::string look(Bytes file, const fbcheck_verdict &told) {
        if (file.size() == 0) return "; this is empty";
        if (told.reason != FBCHECK_WRONG_IDENTIFIER && file.size() >= 8) return {};
        const auto blank = [](std::uint8_t byte) { return byte == ' ' || (byte >= '\t' && byte <= '\r'); };
        const auto printable = [&](std::uint8_t byte) { return blank(byte) || (byte > 32 && byte != 127); };
        const auto begin = std::find_if_not(file.begin(), file.end(), blank);
        const auto end = file.begin() + std::min<std::size_t>(file.size(), 16);
        if (!std::all_of(file.begin(), end, printable))
            return "; this is no binary schema (a message?), which flatc --binary --schema makes";
        if (begin != file.end() && (*begin == '{' || *begin == '['))
            return "; this looks like JSON, and no binary schema, which flatc --binary --schema makes";
        return "; this is text (.fbs?): flatc --binary --schema makes the .bfbs";
    }
    // The field that keeps demands from being asked, and what helps, if that is why there is no schema.
    static std::string unplanned(Bytes file, Options options, const fbcheck_verdict &told) {
        if (told.status != FBCHECK_UNMARKED_BYTES && told.status != FBCHECK_NO_SUCH_TABLE) return {};
        options.demands = 0;
        const Schema plain(file, options);
        const auto name = [](auto &&call) {
            std::string text(call(nullptr, 0), 0);
            return call(text.data(), text.size()), text;
        };
        return ": " + name([&](char *text, std::size_t size) {
                   return fbcheck_object_name(plain.get(), told.object, text, size);
               }) +
               "." + name([&](char *text, std::size_t size) {
                   return fbcheck_field_name(plain.get(), told.object, told.field, text, size);
               }) +
               (told.status == FBCHECK_UNMARKED_BYTES ? "; flatc --bfbs-builtins writes it to the .bfbs,"
                                                      : ";") +
               " FBCHECK_PLAIN_BYTES takes such fields as bytes";
    }
    static fbcheck_scratch *room(Scratch *scratch) noexcept { return scratch ? scratch->get() : nullptr; }
    static std::uint32_t served(std::uint32_t status, const Options &options, std::uint64_t at = 0) {
        if (status != FBCHECK_OK && status != FBCHECK_BAD && status != FBCHECK_TOO_LONG)
            throw Misuse(status, at, options);
        return status;
    }
    // A hint for a bad buffer that was checked as a bare one, but begins with the number of the bytes behind that.
    static std::string begins_prefixed(Bytes buffer, const Options &options, const fbcheck_verdict &told) {
        if (told.status != FBCHECK_BAD || options.prefixed != 0 || buffer.size() < 4) return {};
        std::size_t declared = 0;
        for (std::size_t place = 4; place > 0; --place) declared = declared << 8 | buffer.data()[place - 1];
        return declared == buffer.size() - 4 ? "; it begins as with a prefix: if it has one, set prefixed" : "";
    }
    // The values that were found in a buffer, with their bytes.
    template <class Found, class Values> static Values values_of(const Found &found, Bytes buffer, Values values) {
        std::transform(found.begin(), found.end(), values.begin(),
                       [buffer](const fbcheck_value &value) { return Value(value, buffer); });
        return values;
    }
    // The verdict on a buffer and, if it is ok, the values at these paths.
    fbcheck_verdict find(Bytes buffer, const Path *paths, fbcheck_value *found, std::size_t count, Asked asked,
                         Scratch *scratch) const {
        const Options options = demanding(asked);
        fbcheck_verdict told;
        const auto status = fbcheck_read(get(), room(scratch), &options, buffer.data(), buffer.size(), paths, found,
                                         count, &told);
        return served(status, options, told.at), told;
    }
    // Whether the values at these paths were found in a buffer that was ok before.
    bool find_again(Bytes buffer, const Path *paths, fbcheck_value *found, std::size_t count, Asked asked) const {
        const Options &options = asked.or_else(own_);
        fbcheck_verdict told;
        const auto status =
            fbcheck_read_again(get(), &options, buffer.data(), buffer.size(), paths, found, count, &told);
        return status != FBCHECK_CHANGED && served(status, options, told.at) == FBCHECK_OK;
    }
    // What helps with a text that isn't a path from this root; empty if nothing does.
    std::string hint(std::string_view text, std::uint32_t root) const {
        char told[FBCHECK_LONGEST_HINT];
        return std::string(told, fbcheck_path_hint(get(), root, text.data(), text.size(), told, sizeof told));
    }
    // The options of a check, with the demands of this schema.
    Options demanding(Asked asked) const noexcept {
        Options options = asked.or_else(own_);
        options.demands |= own_.demands;
        return options;
    }

    std::shared_ptr<fbcheck_schema> schema_;
    Options own_;
};

// The values of the elements to which a path with [*] leads (Good::each), for a loop: they are read 16 at a time, as
// the loop comes to them, and nothing is allocated. It refers to its Good, which must outlive it.
class Elements {
  public:
    class Iterator {
      public:
        using iterator_category = std::input_iterator_tag;
        using value_type = Value;
        using difference_type = std::ptrdiff_t;
        using pointer = void;
        using reference = Value;

        Value operator*() const { return of_->at(place_); }
        Iterator &operator++() noexcept { return ++place_, *this; }
        Iterator operator++(int) noexcept { return Iterator(of_, place_++); }
        friend bool operator==(const Iterator &one, const Iterator &other) noexcept {
            return one.place_ == other.place_;
        }
        friend bool operator!=(const Iterator &one, const Iterator &other) noexcept { return !(one == other); }

      private:
        friend class Elements;
        Iterator(Elements *of, std::size_t place) noexcept : of_(of), place_(place) {}
        Elements *of_;
        std::size_t place_;
    };

    Iterator begin() noexcept { return Iterator(this, 0); }
    Iterator end() noexcept { return Iterator(this, size_); }
    // How many elements there are; 0 if the vector isn't there.
    std::size_t size() const noexcept { return size_; }
    bool empty() const noexcept { return size_ == 0; }

  private:
    friend class Good;
    Elements(const fbcheck_schema *schema, const Options &options, Bytes bytes, const Path &path)
        : schema_(schema), options_(options), bytes_(bytes), path_(path) {
        fill(0);
    }
    void fill(std::size_t first) {
        const auto status = fbcheck_read_each(schema_, &options_, bytes_.data(), bytes_.size(), &path_, first,
                                              block_.data(), block_.size(), &size_, nullptr);
        if (status != FBCHECK_OK) throw Misuse(status);
        first_ = first;
    }
    Value at(std::size_t place) {
        if (place - first_ >= block_.size()) fill(place);
        return Value(block_[place - first_], bytes_);
    }

    const fbcheck_schema *schema_;
    Options options_;
    Bytes bytes_;
    Path path_;
    std::array<fbcheck_value, 16> block_;
    std::size_t first_ = 0, size_ = 0;
};

// An ok buffer that Schema::keep has copied or taken. It shares the Schema's handle: what becomes of the Schema and of
// the original doesn't matter. Any number of threads may use one const Good.
class Good {
  public:
    // The values at several paths, as get() has each.
    template <std::size_t Count> std::array<Value, Count> get(const std::array<Path, Count> &paths) const & {
        const auto found = schema_.read_again(bytes_, paths, options_);
        return found ? *found : throw Misuse(FBCHECK_CHANGED);
    }
    std::vector<Value> get(const std::vector<Path> &paths) const & {
        auto found = schema_.read_again(bytes_, paths, options_);
        return found ? *std::move(found) : throw Misuse(FBCHECK_CHANGED);
    }
    // The value at a path, or at a path's text (which takes memory, and throws PathError). Its bytes lie in this Good,
    // which must outlive it. Nothing is checked again: a path of a few steps takes some 0.1 microseconds.
    Value get(const Path &path) const & {
        const auto found = schema_.read_again(bytes_, path, options_);
        return found ? *found : throw Misuse(FBCHECK_CHANGED);
    }
    Value get(std::string_view text) const & { return get(schema_.path(text, options_)); }
    template <class At> Value get(const At &) const && = delete;

    // The values of all elements, by a path with [*] for an index, or its text; the same goes for them.
    Elements each(const Path &path) const & { return Elements(schema_.get(), options_, bytes_, path); }
    Elements each(std::string_view text) const & { return each(schema_.path(text, options_)); }
    template <class At> Elements each(const At &) const && = delete;

    // The bytes.
    Bytes bytes() const & noexcept { return bytes_; }
    Bytes bytes() const && = delete;
    // Gives the bytes away, without a copy: std::move(*kept).release().
    std::vector<std::uint8_t> release() && noexcept { return std::move(bytes_); }

  private:
    friend class Schema;
    Good(const Schema &schema, std::vector<std::uint8_t> &&bytes, const Options &options)
        : schema_(schema), options_(options), bytes_(std::move(bytes)) {}

    Schema schema_;
    Options options_;
    std::vector<std::uint8_t> bytes_;
};

// A Good or nothing. Values lie in the Good, so ask a named one for them: schema.keep(buffer)->get(..) doesn't compile.
// What a Kept that ends has is moved out by * and value().
class Kept : public std::optional<Good> {
    using Base = std::optional<Good>;

  public:
    using Base::Base;
    Good *operator->() & noexcept { return Base::operator->(); }
    const Good *operator->() const & noexcept { return Base::operator->(); }
    const Good *operator->() const && = delete;
    Good &operator*() & noexcept { return Base::operator*(); }
    const Good &operator*() const & noexcept { return Base::operator*(); }
    Good operator*() && noexcept { return std::move(Base::operator*()); }
    Good &value() & { return Base::value(); }
    const Good &value() const & { return Base::value(); }
    Good value() && { return std::move(Base::value()); }
};

inline Kept Schema::keep(Bytes buffer, Asked asked, Scratch *scratch) const {
    return keep(std::vector<std::uint8_t>(buffer.begin(), buffer.end()), asked, scratch);
}

inline Kept Schema::keep(std::vector<std::uint8_t> &&buffer, Asked asked, Scratch *scratch) const {
    const Options &options = asked.or_else(own_);
    std::optional<Scratch> own;
    if (scratch == nullptr && options.max_depth > FBCHECK_DEEP) scratch = &own.emplace(options.max_depth);
    if (!good(buffer, options, scratch)) return std::nullopt;
    return Good(*this, std::move(buffer), options);
}

// Splits a stream that comes in pieces into messages, each preceded by its size.
class Framer {
    // Whether a callback may pause: it returns bool.
    template <class Each>
    static constexpr bool pauses = std::is_same_v<std::decay_t<std::invoke_result_t<Each &, const Bytes &>>, bool>;

  public:
    // most is the maximum size of a message, with the 4 bytes of its size. So much is allocated at once, and left
    // uninitialised, so that the system need give no memory before bytes come.
    Framer(std::size_t most, Framing framing)
        : apart_(framing == Framing::Delimited ? 4 : 0), size_(most) {
        if (most < 8 || most > INT32_MAX) throw Misuse(FBCHECK_OUT_OF_RANGE);
        room_.reset(new std::uint8_t[apart_ + most]);
    }

    // Calls each(Bytes) with each message that ends in this piece; for Delimited, with the bare buffer. Its bytes lie
    // in the framer, aligned for numbers of 8 bytes (no greater force_align), until each returns. Throws a StreamError
    // if the stream is at fault. If each throws, the rest of the piece is lost, and the stream has failed: so catch in
    // each what a single message may throw.
    template <class Each> std::enable_if_t<!pauses<Each>> feed(Bytes piece, Each &&each) {
        split(piece, [&each](const Bytes &message) { return static_cast<void>(each(message)), true; });
    }

    // The same for an each that returns bool. False doesn't say that a message is bad: it is a pause after this message
    // (or the end). Returns how many bytes were used, with which the caller drops them, or goes on:
    //
    //     while (piece.size() > 0) piece = piece.from(framer.feed(piece, each));
    template <class Each> [[nodiscard]] std::enable_if_t<pauses<Each>, std::size_t> feed(Bytes piece, Each &&each) {
        return split(piece, each);
    }

    // Says that the stream has ended. Throws a StreamError if that is inside a message.
    void finish() {
        const auto status = fbcheck_framer_finish(&framer_, room(), size_);
        if (status != FBCHECK_OK) throw StreamError(status, framer_);
    }

    // Begins another stream, whatever became of the last one.
    void reset() noexcept { framer_ = FBCHECK_FRAMER_INIT; }

    // How many bytes are held of the current message and, after FBCHECK_OVERSIZE, the size that its prefix declared.
    const fbcheck_framer &told() const noexcept { return framer_; }

  private:
    // The room of the framer, null if it was moved from. For Delimited it starts 4 bytes into the allocation, so that
    // the buffer after the 4 bytes of its size is aligned.
    std::uint8_t *room() noexcept { return room_ ? room_.get() + apart_ : nullptr; }

    // Goes through a piece, up to its end or to a pause. Returns how many of its bytes were used.
    template <class Each> std::size_t split(Bytes piece, Each &&each) {
        std::size_t at = 0;
        for (bool more = true; more && at < piece.size();) {
            std::size_t used = 0;
            const auto status =
                fbcheck_framer_feed(&framer_, room(), size_, piece.data() + at, piece.size() - at, &used);
            if (status != FBCHECK_OK && status != FBCHECK_MORE) throw StreamError(status, framer_);
            at += used;
            if (status == FBCHECK_OK) more = hand_on(each);
        }
        return at;
    }

    // Hands the message that is held to each, and releases it. The stream has failed if each throws.
    template <class Each> bool hand_on(Each &&each) try {
        const Bytes message(room() + apart_, framer_.held - apart_);
        fbcheck_framer_next(&framer_, room(), size_);
        return each(message);
    } catch (...) {
        framer_.failed = 1;
        throw;
    }

    fbcheck_framer framer_ = FBCHECK_FRAMER_INIT;
    std::size_t apart_, size_;
    std::unique_ptr<std::uint8_t[]> room_;
};

}  // namespace fbcheck
