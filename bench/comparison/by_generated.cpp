// The verifier that flatc generates for one schema. GENERATED is the header that it wrote, and ROOT the root table.
// Where ALIGNED is false, it doesn't ask whether anything is aligned.
//
//   by_generated [--fenced] < STREAM

#include GENERATED

#include "stream.h"

#ifndef ALIGNED
#define ALIGNED true
#endif

int main(int count, char **words) {
  const auto verifies = [](const uint8_t *message, size_t length) {
    flatbuffers::Verifier verifier(message, length, most_depth, most_tables, ALIGNED);
    return verifier.VerifySizePrefixedBuffer<ROOT>(nullptr);
  };
  return verify_as_asked(verifies, words[count - 1]);
}
