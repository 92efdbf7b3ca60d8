// Rows of schemas that are checked: by ours when a set is made, with the making of its records, which the set takes over; by
// the C++ library when a SchemaLoader is given nodes that lie in a message. A checksum adds the numbers of nodes.
#pragma once
#include "table.h"
#include <capnp/message.h>
#include <capnp/schema-loader.h>
#include <capnp/schema.capnp.h>
#include <capnp/serialize.h>
#include <string>

namespace schemas {

using capnp::schema::Field;
using capnp::schema::Node;
using Words = kj::Array<capnp::word>;

constexpr uint32_t STRUCTS = 1000, FIELDS = 30, MOST_FIELDS = 60000, GROUPS = 20000;

// the id of the node of a number
inline uint64_t id_of(uint32_t number) { return (uint64_t(1) << 63) + number; }

inline capnp::List<Field>::Builder init(Node::Builder node, uint32_t number, bool is_group, uint16_t data_words,
                                        uint16_t pointers, uint32_t fields) {
  node.setId(id_of(number));
  node.setDisplayName("S");
  node.setScopeId(is_group ? id_of(number - 1) : 0);
  auto body = node.initStruct();
  body.setDataWordCount(data_words);
  body.setPointerCount(pointers);
  body.setIsGroup(is_group);
  return body.initFields(fields);
}

inline Field::Builder name(capnp::List<Field>::Builder fields, uint32_t index) {
  auto field = fields[index];
  field.setName("field" + std::to_string(index));
  field.setCodeOrder(index);
  return field;
}

// the type and the default of a slot
struct Slot {
  Field::Slot::Builder slot;

  Slot(Field::Builder field, uint32_t offset) : slot(field.initSlot()) { slot.setOffset(offset); }
  capnp::schema::Type::Builder type() { return slot.initType(); }
  capnp::schema::Value::Builder value() { return slot.initDefaultValue(); }
};

#define SLOT(INDEX, OFFSET, KIND, ZERO)                                                                                          \
  {                                                                                                                              \
    Slot slot(name(fields, INDEX), OFFSET);                                                                                      \
    slot.type().set##KIND();                                                                                                     \
    slot.value().set##KIND(ZERO);                                                                                                \
  }

// ten fields of ten types
inline void fill_ten(capnp::List<Field>::Builder fields, uint32_t round) {
  uint32_t first = 10 * round;
  SLOT(first, round, Bool, false)
  SLOT(first + 1, 1 + round, Uint8, 0)
  SLOT(first + 2, 2 + round, Int16, 0)
  SLOT(first + 3, 4 + round, Uint32, 0)
  SLOT(first + 4, 6 + round, Int64, 0)
  SLOT(first + 5, 2 * round, Text, "")
  SLOT(first + 6, 5 + round, Uint16, 0)
  SLOT(first + 7, 9 + round, Uint64, 0)
  SLOT(first + 8, 2 * round + 1, Data, capnp::Data::Reader())
  SLOT(first + 9, 0, Void, capnp::VOID)
}

using Nodes = capnp::List<Node>::Builder;

inline void fill_many(Nodes nodes) {
  for (uint32_t number = 0; number < nodes.size(); number++) {
    auto fields = init(nodes[number], number, false, 12, 6, FIELDS);
    for (uint32_t round = 0; round < FIELDS / 10; round++) fill_ten(fields, round);
  }
}

inline void fill_wide(Nodes nodes) {
  auto fields = init(nodes[0], 0, false, MOST_FIELDS / 4, 0, MOST_FIELDS);
  for (uint32_t i = 0; i < MOST_FIELDS; i++) SLOT(i, i, Uint16, 0)
}

inline void fill_chain(Nodes nodes) {
  for (uint32_t number = 0; number < GROUPS; number++) {
    auto fields = init(nodes[number], number, number > 0, 1, 0, 1);
    if (number + 1 < GROUPS) name(fields, 0).initGroup().setTypeId(id_of(number + 1));
    else SLOT(0, 0, Uint16, 0)
  }
}

#undef SLOT

inline Words message_of(uint32_t nodes, void (*fill)(Nodes)) {
  capnp::MallocMessageBuilder message(1 << 20);
  fill(message.initRoot<capnp::schema::CodeGeneratorRequest>().initNodes(nodes));
  return capnp::messageToFlatArray(message);
}

inline uint64_t check(kj::ArrayPtr<const capnp::word> words, uint64_t rounds) {
  capnp::ReaderOptions options;
  options.traversalLimitInWords = 1ull << 60;
  capnp::FlatArrayMessageReader message(words, options);
  auto nodes = message.getRoot<capnp::schema::CodeGeneratorRequest>().getNodes();
  uint64_t sum = 0;
  while (rounds--) {
    capnp::SchemaLoader loader;
    for (auto node : nodes) loader.load(node);
    sum += nodes.size();
  }
  return sum;
}

inline void row(Table &table, const char *name, double things, OurCall ours, const Words &words) {
  table.row(name, things, with(ours, nullptr, 0), [&words](uint64_t rounds) { return check(words, rounds); });
}

inline void add_rows(Table &table) {
  auto many = message_of(STRUCTS, fill_many), wide = message_of(1, fill_wide), chain = message_of(GROUPS, fill_chain);
  row(table, "a field checked, of 1,000 structs of 30", STRUCTS * FIELDS, ours::check_many, many);
  row(table, "a field checked, of one struct of 60,000", MOST_FIELDS, ours::check_wide, wide);
  row(table, "a group checked, of a chain of 20,000", GROUPS, ours::check_chain, chain);
}

} // namespace schemas
