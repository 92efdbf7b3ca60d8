// Rows of sets that are read from their messages and checked: ours reads the meta set's form of so many structs of 30 fields; the
// C++ library's SchemaLoader is given the same nodes from a compiler's request. A checksum adds the numbers of nodes.
#pragma once
#include "schemas.h"
#include "set.capnp.h"

namespace set_messages {

// a type by its number in the public schema language, the place of its value in the message, and whether that is a text or data
struct Kind {
  uint16_t base, value;
  uint32_t first, step;
};

// the same ten slots as those of `schemas::fill_ten`, in the order of their fields
constexpr Kind TEN[] = {{1, 1, 0, 1}, {6, 6, 1, 1}, {3, 3, 2, 1}, {8, 8, 4, 1}, {5, 5, 6, 1},
                        {12, 11, 0, 2}, {7, 7, 5, 1}, {9, 9, 9, 1}, {13, 12, 1, 2}, {0, 0, 0, 0}};

inline void fill(SetRecord::Builder set, uint32_t structs) {
  auto nodes = set.initNodes(structs);
  auto brands = set.initBrands(structs);
  for (uint32_t number = 0; number < structs; number++) {
    auto node = nodes[number];
    node.setId(schemas::id_of(number));
    node.setDataWords(12);
    node.setPointers(6);
    node.setDisplayName("S");
    auto fields = node.initFields(schemas::FIELDS);
    auto brand = brands[number];
    brand.setNode(number);
    auto types = brand.initFieldTypes(schemas::FIELDS);
    brand.initChildTypes(schemas::FIELDS);
    for (uint32_t index = 0; index < schemas::FIELDS; index++) {
      const Kind &kind = TEN[index % 10];
      fields[index].setName("field" + std::to_string(index));
      auto slot = fields[index].initSlot();
      slot.setOffset(kind.first + kind.step * (index / 10));
      auto value = slot.initDefault();
      value.setKind(kind.value);
      if (kind.value == 11) value.initContent(1);
      types[index].setBase(kind.base);
    }
  }
}

inline void row(Table &table, const char *name, uint32_t structs) {
  capnp::MallocMessageBuilder message(1 << 20);
  fill(message.initRoot<SetRecord>(), structs);
  auto ours = capnp::messageToFlatArray(message);
  auto request = schemas::message_of(structs, schemas::fill_many);
  auto bytes = ours.asBytes();
  table.row(name, structs * schemas::FIELDS, with(ours::read_set, bytes.begin(), bytes.size()),
            [&request](uint64_t rounds) { return schemas::check(request, rounds); });
}

inline void add_rows(Table &table) {
  row(table, "a field read and checked, of 1,000 structs of 30", 1000);
  row(table, "a field read and checked, of 10,000 structs of 30", 10000);
}

} // namespace set_messages
