// Rows of dynamic reads: the six fields of a struct, by name and by field handle, with the message opened once or in each
// round. A checksum adds the fields as numbers of 64 bits, a truth value as 0 or 1 and a void as 0.
#pragma once
#include "table.h"
#include <capnp/dynamic.h>
#include <capnp/message.h>
#include <capnp/serialize.h>
#include <vector>

namespace reads {

using capnp::DynamicStruct;
using capnp::DynamicValue;
using capnp::StructSchema;

inline const char *const NAMES[] = {"flag", "s", "n", "w", "q", "z"};

// a message of two words of data: true stored as 1 under a default of true, and so on
alignas(8) inline const uint8_t MESSAGE[] = {
    0, 0, 0, 0, 3, 0, 0, 0, 0, 0, 0, 0, 2, 0, 0, 0,
    0x01, 0xfd, 0x2b, 0x01, 0xfe, 0xff, 0xff, 0xff, 0xff, 0xff, 0xff, 0xff, 0xff, 0xff, 0xff, 0xff};

// a message that is opened where its bytes lie
struct Opened {
  capnp::FlatArrayMessageReader reader;

  static capnp::ReaderOptions options() {
    capnp::ReaderOptions options;
    options.traversalLimitInWords = 1ull << 50;
    return options;
  }

  Opened() : reader(kj::arrayPtr(reinterpret_cast<const capnp::word *>(MESSAGE), sizeof MESSAGE / 8), options()) {}
};

inline uint64_t number_of(DynamicValue::Reader value) {
  switch (value.getType()) {
  case DynamicValue::BOOL: return value.as<bool>();
  case DynamicValue::INT: return static_cast<uint64_t>(value.as<int64_t>());
  case DynamicValue::UINT: return value.as<uint64_t>();
  default: return 0;
  }
}

inline uint64_t sum_by_name(DynamicStruct::Reader root) {
  uint64_t sum = 0;
  for (auto name : NAMES) sum += number_of(root.get(name));
  return sum;
}

inline uint64_t sum_by_field(DynamicStruct::Reader root, const std::vector<StructSchema::Field> &fields) {
  uint64_t sum = 0;
  for (auto &field : fields) sum += number_of(root.get(field));
  return sum;
}

inline uint64_t by_name_opened(StructSchema schema, uint64_t rounds) {
  uint64_t sum = 0;
  while (rounds--) {
    Opened message;
    sum += sum_by_name(message.reader.getRoot<DynamicStruct>(schema));
  }
  return sum;
}

inline uint64_t by_name(StructSchema schema, uint64_t rounds) {
  Opened message;
  auto root = message.reader.getRoot<DynamicStruct>(schema);
  uint64_t sum = 0;
  while (rounds--) sum += sum_by_name(root);
  return sum;
}

inline std::vector<StructSchema::Field> fields_of(StructSchema schema) {
  std::vector<StructSchema::Field> fields;
  for (auto field : schema.getFields()) fields.push_back(field);
  return fields;
}

inline uint64_t by_field_opened(StructSchema schema, uint64_t rounds) {
  auto fields = fields_of(schema);
  uint64_t sum = 0;
  while (rounds--) {
    Opened message;
    sum += sum_by_field(message.reader.getRoot<DynamicStruct>(schema), fields);
  }
  return sum;
}

inline uint64_t by_field(StructSchema schema, uint64_t rounds) {
  auto fields = fields_of(schema);
  Opened message;
  auto root = message.reader.getRoot<DynamicStruct>(schema);
  uint64_t sum = 0;
  while (rounds--) sum += sum_by_field(root, fields);
  return sum;
}

// the index of each field, found by its name
inline uint64_t find_by_name(StructSchema schema, uint64_t rounds) {
  uint64_t sum = 0;
  while (rounds--) {
    for (auto name : NAMES) {
      KJ_IF_MAYBE(field, schema.findFieldByName(name)) { sum += field->getIndex(); }
    }
  }
  return sum;
}

inline void add_rows(Table &table, StructSchema many) {
  table.row("six fields by name, opened each time", 6, with(ours::read_by_name_opened, MESSAGE, sizeof MESSAGE),
            [many](uint64_t rounds) { return by_name_opened(many, rounds); });
  table.row("six fields by name", 6, with(ours::read_by_name, MESSAGE, sizeof MESSAGE),
            [many](uint64_t rounds) { return by_name(many, rounds); });
  table.row("six fields by handle, opened each time", 6, with(ours::read_by_field_opened, MESSAGE, sizeof MESSAGE),
            [many](uint64_t rounds) { return by_field_opened(many, rounds); });
  table.row("six fields by handle", 6, with(ours::read_by_field, MESSAGE, sizeof MESSAGE),
            [many](uint64_t rounds) { return by_field(many, rounds); });
  table.row("a field found by its name", 6, with(ours::find_by_name, MESSAGE, sizeof MESSAGE),
            [many](uint64_t rounds) { return find_by_name(many, rounds); });
}

} // namespace reads
