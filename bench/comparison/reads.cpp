// Reads the same values of one message over and over, and tells the nanoseconds that it takes in the best of 200 rounds:
// by code that flatc generates, which checks nothing, by fbcheck_read_again, and by fbcheck_read, which checks the whole
// message each time.
//
//   reads DELIVERIES.bfbs DELIVERY NAMES.bfbs NAMES
//
// Of a delivery these are a number, a text one table further on, and a vector's count; of a thousand names the last,
// and then all: by fbcheck_read_each, 16 at a time, and by a path for each, all of them in one call.

#include <fbcheck.hpp>

#include <chrono>
#include <cstdio>
#include <cstdlib>
#include <fstream>
#include <iterator>

#include "deliveries_generated.h"
#include "names_generated.h"

namespace {

std::string bytes_of(const char *path) {
  std::ifstream file(path, std::ios::binary);
  return {std::istreambuf_iterator<char>(file), {}};
}

// The nanoseconds that a call takes; what the calls return must be what is wanted.
template <typename Call>
double nanoseconds(uint64_t want, int calls, const Call &call) {
  double best = 1e18;
  for (int round = 0; round < 200; ++round) {
    const auto begun = std::chrono::steady_clock::now();
    for (int count = 0; count < calls; ++count) {
      asm volatile("" ::: "memory");  // each call loads anew what it reads
      if (call() != want) std::exit(3);
    }
    const std::chrono::duration<double, std::nano> taken = std::chrono::steady_clock::now() - begun;
    best = std::min(best, taken.count() / calls);
  }
  return best;
}

// What a text adds to a sum of what is read: its last byte and its length.
uint64_t sum_of(const char *text, uint64_t size) { return static_cast<unsigned char>(text[size - 1]) + size; }

// One line: the times of each way to read values that come to the same sum.
template <std::size_t Count, typename Generated, typename Sum>
void tell(const char *name, const fbcheck::Schema &schema, const std::string &message,
          const std::array<fbcheck::Path, Count> &paths, const Generated &generated, const Sum &sum) {
  fbcheck::Options options;
  options.prefixed = 1;
  const auto *bytes = reinterpret_cast<const uint8_t *>(message.data());
  std::array<fbcheck_value, Count> values;
  const auto again = [&]() -> uint64_t {
    return fbcheck_read_again(schema.get(), &options, bytes, message.size(), paths.data(), values.data(), Count,
                              nullptr) == FBCHECK_OK
               ? sum(values.data())
               : 0;
  };
  const auto check = [&]() -> uint64_t {
    return fbcheck_read(schema.get(), nullptr, &options, bytes, message.size(), paths.data(), values.data(), Count,
                        nullptr) == FBCHECK_OK
               ? sum(values.data())
               : 0;
  };
  const uint64_t want = generated();
  std::printf("%-28s%12.1f%14.1f%14.1f\n", name, nanoseconds(want, 2000, generated), nanoseconds(want, 2000, again),
              nanoseconds(want, message.size() > 1000 ? 5 : 2000, check));
}

// The same for all of a thousand names.
void tell_all(const fbcheck::Schema &schema, const std::string &names) {
  fbcheck::Options options;
  options.prefixed = 1;
  const auto *bytes = reinterpret_cast<const uint8_t *>(names.data());
  const auto each = schema.path("names[*]");
  std::vector<fbcheck::Path> paths;
  for (int place = 0; place < 1000; ++place) paths.push_back(schema.path("names[" + std::to_string(place) + "]"));
  std::vector<fbcheck_value> values(paths.size());
  const auto sum = [&](std::size_t count) {
    uint64_t all = 0;
    for (std::size_t place = 0; place < count; ++place)
      all += sum_of(names.data() + values[place].at, values[place].size);
    return all;
  };
  const auto generated = [&] {
    uint64_t all = 0;
    for (const auto *name : *flatbuffers::GetSizePrefixedRoot<compare::Directory>(names.data())->names())
      all += sum_of(name->c_str(), name->size());
    return all;
  };
  const auto by_blocks = [&] {
    uint64_t all = 0;
    for (std::size_t first = 0, elements = 1; first < elements; first += 16) {
      if (fbcheck_read_each(schema.get(), &options, bytes, names.size(), &each, first, values.data(), 16, &elements,
                            nullptr) != FBCHECK_OK)
        return uint64_t(0);
      all += sum(std::min<std::size_t>(16, elements - first));
    }
    return all;
  };
  const auto again = [&] {
    return fbcheck_read_again(schema.get(), &options, bytes, names.size(), paths.data(), values.data(), paths.size(),
                              nullptr) == FBCHECK_OK
               ? sum(paths.size())
               : 0;
  };
  const auto check = [&] {
    return fbcheck_read(schema.get(), nullptr, &options, bytes, names.size(), paths.data(), values.data(),
                        paths.size(), nullptr) == FBCHECK_OK
               ? sum(paths.size())
               : 0;
  };
  const uint64_t want = generated();
  std::printf("%-28s%12.1f%14.1f%14.1f%14.1f\n", "a thousand names", nanoseconds(want, 20, generated),
              nanoseconds(want, 5, again), nanoseconds(want, 5, check), nanoseconds(want, 5, by_blocks));
}

}  // namespace

int main(int, char **words) {
  const fbcheck::Schema deliveries(bytes_of(words[1])), directories(bytes_of(words[3]));
  const std::string delivery = bytes_of(words[2]), names = bytes_of(words[4]);
  std::printf("%-28s%12s%14s%14s%14s\n", "", "generated", "read_again", "read", "read_each");
  const auto three = [&](const fbcheck_value *value) {
    return value[0].number + sum_of(delivery.data() + value[1].at, value[1].size) + value[2].number;
  };
  tell("three values of a delivery", deliveries, delivery, deliveries.paths("id", "to.name", "items"),
       [&] {
         const auto *read = flatbuffers::GetSizePrefixedRoot<post::Delivery>(delivery.data());
         return read->id() + sum_of(read->to()->name()->c_str(), read->to()->name()->size()) + read->items()->size();
       },
       three);
  tell("a number of a delivery", deliveries, delivery, deliveries.paths("id"),
       [&] { return uint64_t(flatbuffers::GetSizePrefixedRoot<post::Delivery>(delivery.data())->id()); },
       [](const fbcheck_value *value) { return value->number; });
  tell("one of a thousand names", directories, names, directories.paths("names[999]"),
       [&] {
         const auto *name = flatbuffers::GetSizePrefixedRoot<compare::Directory>(names.data())->names()->Get(999);
         return sum_of(name->c_str(), name->size());
       },
       [&](const fbcheck_value *value) { return sum_of(names.data() + value->at, value->size); });
  tell_all(directories, names);
}
