// Rows of texts: a struct with a list of structs, printed on one line. A checksum adds the lengths of the texts.
#pragma once
#include "reads.h"
#include <kj/string.h>

namespace prints {

constexpr uint32_t COUNT = 10000;

// a message of a list of structs, each of one number that is not its default
inline kj::Array<capnp::word> message_of(capnp::StructSchema lists, uint32_t count) {
  capnp::MallocMessageBuilder message(count * 2);
  auto items = message.initRoot<capnp::DynamicStruct>(lists).init("items", count).as<capnp::DynamicList>();
  for (uint32_t i = 0; i < count; i++) items[i].as<capnp::DynamicStruct>().set("a", i % 65535 + 1);
  return capnp::messageToFlatArray(message);
}

inline uint64_t print_lists(capnp::StructSchema lists, kj::ArrayPtr<const capnp::word> words, uint64_t rounds) {
  capnp::FlatArrayMessageReader message(words, reads::Opened::options());
  auto root = message.getRoot<capnp::DynamicStruct>(lists);
  uint64_t sum = 0;
  while (rounds--) sum += kj::str(root).size();
  return sum;
}

inline void add_rows(Table &table, capnp::StructSchema lists) {
  auto words = message_of(lists, COUNT);
  auto bytes = words.asBytes();
  table.row("a list of 10,000 structs printed", COUNT, with(ours::print_lists, bytes.begin(), bytes.size()),
            [lists, &words](uint64_t rounds) { return print_lists(lists, words, rounds); });
}

} // namespace prints
