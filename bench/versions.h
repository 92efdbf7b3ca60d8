// A row of two versions of a set that are compared: ours joins the sets, which it takes apart, and tells what differs
// between the structs of each name, without the reading of the sets; the C++ library's SchemaLoader, which has the older
// nodes, is given the newer ones, and throws where one of the two does not follow the other. A checksum adds the numbers of
// structs.
#pragma once
#include "set_messages.h"

namespace versions {

// gives the older nodes once, and the newer ones so many times
inline uint64_t load(kj::ArrayPtr<const capnp::word> words, uint64_t rounds) {
  capnp::ReaderOptions options;
  options.traversalLimitInWords = 1ull << 60;
  capnp::FlatArrayMessageReader older(words, options), newer(words, options);
  auto nodes = newer.getRoot<capnp::schema::CodeGeneratorRequest>().getNodes();
  capnp::SchemaLoader loader;
  for (auto node : older.getRoot<capnp::schema::CodeGeneratorRequest>().getNodes()) loader.load(node);
  uint64_t sum = 0;
  while (rounds--) {
    for (auto node : nodes) loader.load(node);
    sum += nodes.size();
  }
  return sum;
}

inline void add_rows(Table &table) {
  capnp::MallocMessageBuilder message(1 << 20);
  auto set = message.initRoot<SetRecord>();
  set_messages::fill(set, schemas::STRUCTS);
  for (uint32_t number = 0; number < schemas::STRUCTS; number++) set.getNodes()[number].setDisplayName("S" + std::to_string(number));
  auto ours = capnp::messageToFlatArray(message);
  auto request = schemas::message_of(schemas::STRUCTS, schemas::fill_many);
  auto bytes = ours.asBytes();
  table.row_after_start("a field compared with its next version, of 1,000 structs of 30", schemas::STRUCTS * schemas::FIELDS,
                        with(ours::compare_sets, bytes.begin(), bytes.size()), [&request](uint64_t rounds) { return load(request, rounds); });
}

} // namespace versions
