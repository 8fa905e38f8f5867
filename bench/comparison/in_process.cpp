// The verifiers in one process, in turns: the library for C, flatbuffers/reflection.h, and what flatc generates for one
// schema. GENERATED is the header that flatc wrote, and ROOT the root table.
//
//   in_process SCHEMA.bfbs ROUNDS [VERIFIER THREADS].. < STREAM
//
// In each round each of these verifiers (fbcheck, reflection, generated) checks the stream on so many threads, of which
// each checks every message. It tells `tables N`, of all messages, and then by a line for each verifier the nanoseconds
// of its best round.

#include GENERATED

#include <fbcheck.h>
#include <flatbuffers/reflection.h>

#include <atomic>
#include <chrono>
#include <memory>
#include <thread>

#include "stream.h"

using Clock = std::chrono::steady_clock;

// Copies of the messages of standard input, one after another, and where each lies.
class Messages {
 public:
  Messages() {
    Input input;
    size_t length;
    while (const uint8_t *message = input.next(length)) {
      places_.emplace_back(bytes_.size(), length);
      bytes_.insert(bytes_.end(), message, message + length);
    }
  }

  // Ends the process where one isn't good.
  template <typename Verifies>
  void check(const Verifies &verifies) const {
    for (const auto &[at, length] : places_)
      if (!verifies(bytes_.data() + at, length)) fail("a message is refused");
  }

 private:
  std::vector<uint8_t> bytes_;
  std::vector<std::pair<size_t, size_t>> places_;
};

// The nanoseconds from when the first of the threads begins until the last one has checked all messages. Each has a
// verifier of its own, and begins when all are there.
template <typename Begin>
double round_of(unsigned threads, const Messages &messages, const Begin &begin) {
  std::atomic<unsigned> there{0};
  std::vector<std::pair<Clock::time_point, Clock::time_point>> times(threads);
  std::vector<std::thread> running;
  for (auto &[begun, ended] : times)
    running.emplace_back([&, &begun = begun, &ended = ended] {
      const auto verifies = begin();
      for (++there; there < threads;) continue;
      begun = Clock::now();
      messages.check(verifies);
      ended = Clock::now();
    });
  for (std::thread &thread : running) thread.join();
  auto first = times[0].first, last = times[0].second;
  for (const auto &[begun, ended] : times) first = std::min(first, begun), last = std::max(last, ended);
  return std::chrono::duration<double, std::nano>(last - first).count();
}

// What every thread shares of the library, and of the verifier that goes by the same schema file.
struct Shared {
  explicit Shared(const std::string &file) {
    const auto bytes = reinterpret_cast<const uint8_t *>(file.data());
    flatbuffers::Verifier verifier(bytes, file.size());
    schema = fbcheck_schema_new(bytes, file.size(), nullptr, nullptr);
    if (schema == nullptr || !reflection::VerifySchemaBuffer(verifier)) fail("the schema file is no good");
    reflected = reflection::GetSchema(bytes);
    options.max_depth = most_depth;
    options.max_tables = most_tables;
    options.prefixed = 1;
  }
  ~Shared() { fbcheck_schema_free(schema); }

  fbcheck_schema *schema;
  const reflection::Schema *reflected;
  fbcheck_options options = FBCHECK_OPTIONS_INIT;
};

// The tables of all messages.
uint64_t tables_of(const Shared &shared, const Messages &messages) {
  uint64_t tables = 0;
  messages.check([&](const uint8_t *message, size_t length) {
    fbcheck_verdict verdict;
    const auto status = fbcheck_verify(shared.schema, nullptr, &shared.options, message, length, &verdict);
    tables += verdict.tables;
    return status == FBCHECK_OK;
  });
  return tables;
}

// The library, with what a thread needs for itself.
auto by_library(const Shared &shared) {
  const auto free = [](fbcheck_scratch *scratch) { fbcheck_scratch_free(scratch); };
  const std::shared_ptr<fbcheck_scratch> scratch(fbcheck_scratch_new(most_depth), free);
  return [&shared, scratch](const uint8_t *message, size_t length) {
    return fbcheck_verify(shared.schema, scratch.get(), &shared.options, message, length, nullptr) == FBCHECK_OK;
  };
}

auto by_reflection(const Shared &shared) {
  return [&schema = *shared.reflected](const uint8_t *message, size_t length) {
    return flatbuffers::VerifySizePrefixed(schema, *schema.root_table(), message, length, most_depth, most_tables);
  };
}

auto by_generated(const Shared &) {
  return [](const uint8_t *message, size_t length) {
    flatbuffers::Verifier verifier(message, length, most_depth, most_tables);
    return verifier.VerifySizePrefixedBuffer<ROOT>(nullptr);
  };
}

double round_by(const std::string &verifier, unsigned threads, const Messages &messages, const Shared &shared) {
  if (verifier == "fbcheck") return round_of(threads, messages, [&] { return by_library(shared); });
  if (verifier == "reflection") return round_of(threads, messages, [&] { return by_reflection(shared); });
  if (verifier == "generated") return round_of(threads, messages, [&] { return by_generated(shared); });
  fail("no such verifier");
}

int main(int count, char **words) {
  if (count < 3 || count % 2 == 0) fail("usage: in_process SCHEMA.bfbs ROUNDS [VERIFIER THREADS]..");
  const std::string file = contents(words[1]);
  const Shared shared(file);
  const Messages messages;
  std::vector<double> best(static_cast<size_t>(count), std::numeric_limits<double>::max());
  for (unsigned long left = std::strtoul(words[2], nullptr, 10); left > 0; --left)
    for (int at = 3; at < count; at += 2) {
      const auto threads = static_cast<unsigned>(std::strtoul(words[at + 1], nullptr, 10));
      best[at] = std::min(best[at], round_by(words[at], threads, messages, shared));
    }
  std::printf("tables %ju\n", static_cast<uintmax_t>(tables_of(shared, messages)));
  for (int at = 3; at < count; at += 2) std::printf("%.0f\n", best[at]);
  return 0;
}
