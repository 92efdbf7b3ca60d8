// Rows of JSON, written and read: a document of 21.6 MB, and a list of a million floats of up to 17 digits. The checksum of
// documents adds their lengths, that of floats counts commas, since the other side's digits may be more. What is read adds
// the words of the message.
#pragma once
#include "documents.h"
#include <algorithm>
#include <capnp/compat/json.h>

namespace json {

constexpr unsigned FLOATS = 1000000;

// numbers from 0 up to 1, by the upper 53 bits of a sequence
inline wire::Bytes measures() {
  capnp::MallocMessageBuilder message(FLOATS + 16);
  auto values = message.initRoot<documents::Measures>().initValues(FLOATS);
  uint64_t state = 0x9e3779b97f4a7c15;
  for (unsigned i = 0; i < FLOATS; i++) {
    state ^= state << 13;
    state ^= state >> 7;
    state ^= state << 17;
    values.set(i, double(state >> 11) / 9007199254740992.0);
  }
  return wire::bytes_of(message);
}

inline uint64_t write_documents(const wire::Bytes &bytes, uint64_t rounds) {
  capnp::JsonCodec codec;
  uint64_t sum = 0;
  while (rounds--) {
    wire::Opened source(bytes);
    sum += codec.encode(source.reader.getRoot<documents::Document>()).size();
  }
  return sum;
}

inline uint64_t write_floats(const wire::Bytes &bytes, uint64_t rounds) {
  capnp::JsonCodec codec;
  uint64_t sum = 0;
  while (rounds--) {
    wire::Opened source(bytes);
    auto text = codec.encode(source.reader.getRoot<documents::Measures>());
    sum += std::count(text.begin(), text.end(), ',');
  }
  return sum;
}

template <typename Root> wire::Bytes text_of(const wire::Bytes &bytes) {
  capnp::JsonCodec codec;
  wire::Opened source(bytes);
  auto text = codec.encode(source.reader.getRoot<Root>());
  return wire::Bytes(text.begin(), text.end());
}

template <typename Root> uint64_t read(const wire::Bytes &json, uint64_t rounds) {
  capnp::JsonCodec codec;
  uint64_t sum = 0;
  while (rounds--) {
    capnp::MallocMessageBuilder message;
    auto root = message.initRoot<Root>();
    codec.decode(kj::arrayPtr(reinterpret_cast<const char *>(json.data()), json.size()), root);
    sum += root.totalSize().wordCount + 1; // with the root pointer
  }
  return sum;
}

inline void add_rows(Table &table) {
  auto document = documents::document();
  wire::row(table, "a document of 21.6 MB as JSON, an item", documents::COUNT, document, ours::json_document, write_documents);
  auto floats = measures();
  wire::row(table, "a float of up to 17 digits as JSON", FLOATS, floats, ours::json_floats, write_floats);
  wire::row(table, "such JSON of a document read, an item", documents::COUNT, text_of<documents::Document>(document), ours::document_of_json, read<documents::Document>);
  wire::row(table, "such JSON of a float read", FLOATS, text_of<documents::Measures>(floats), ours::floats_of_json, read<documents::Measures>);
}

} // namespace json
