// Writes each message of a stream as a line of JSON, by the library of FlatBuffers for C++: unlike flatc it does so for
// unions of structs and texts too, and for vectors of unions.
//
//   as_json SCHEMA.fbs STREAM

#include <cstdio>
#include <cstring>
#include <string>
#include <vector>

#include <flatbuffers/idl.h>
#include <flatbuffers/util.h>

int main(int, char **words) {
  flatbuffers::IDLOptions options;
  options.strict_json = true;
  options.output_default_scalars_in_json = true;
  options.indent_step = -1;
  options.lang_to_generate = flatbuffers::IDLOptions::kBinary;
  flatbuffers::Parser parser(options);
  std::string schema, stream;
  if (!flatbuffers::LoadFile(words[1], false, &schema) || !flatbuffers::LoadFile(words[2], true, &stream)) return 1;
  if (!parser.Parse(schema.c_str())) return 2;
  for (size_t at = 0; at + 4 <= stream.size();) {
    uint32_t size;
    std::string line;
    std::memcpy(&size, stream.data() + at, sizeof size);
    std::vector<uint8_t> message(stream.begin() + at + 4, stream.begin() + at + 4 + size);
    if (!flatbuffers::GenerateText(parser, message.data(), &line)) return 3;
    std::puts(line.c_str());
    at += 4 + size;
  }
}
