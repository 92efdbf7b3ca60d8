// Rows of dynamic sets: numbers of a struct and of its groups by field handle, and messages that are built whole. A checksum
// adds three of the numbers as they then read, or the bytes of the messages.
#pragma once
#include "reads.h"

namespace sets {

using capnp::DynamicStruct;
using capnp::StructSchema;

inline StructSchema group_of(StructSchema::Field field) { return field.getType().asStruct(); }

inline uint64_t set_numbers(StructSchema shapes, uint64_t rounds) {
  auto id = shapes.getFieldByName("id"), circle = shapes.getFieldByName("circle"), tag = shapes.getFieldByName("tag");
  auto r = group_of(circle).getFieldByName("r"), n = group_of(tag).getFieldByName("n"), u1 = group_of(tag).getFieldByName("u1");
  capnp::MallocMessageBuilder message;
  auto root = message.initRoot<DynamicStruct>(shapes);
  uint64_t sum = 0;
  for (uint64_t number = 0; number < rounds; number++) {
    root.set(id, uint16_t(number));
    root.init(circle).as<DynamicStruct>().set(r, uint32_t(number));
    auto inner = root.init(tag).as<DynamicStruct>();
    inner.set(n, uint16_t(number));
    inner.set(u1, uint8_t(number));
    sum += reads::number_of(root.get(id).asReader()) + reads::number_of(inner.get(n).asReader()) +
           reads::number_of(inner.get(u1).asReader());
  }
  return sum;
}

inline uint64_t set_message(StructSchema shapes, uint64_t rounds) {
  auto id = shapes.getFieldByName("id"), tag = shapes.getFieldByName("tag");
  auto n = group_of(tag).getFieldByName("n"), u1 = group_of(tag).getFieldByName("u1"), q = group_of(tag).getFieldByName("q");
  uint64_t sum = 0;
  while (rounds--) {
    capnp::MallocMessageBuilder message(64);
    auto root = message.initRoot<DynamicStruct>(shapes);
    root.set(id, uint16_t(5));
    auto inner = root.init(tag).as<DynamicStruct>();
    inner.set(n, uint16_t(3));
    inner.set(u1, uint8_t(9));
    inner.set(q, capnp::Text::Reader("hello"));
    sum += capnp::messageToFlatArray(message).asBytes().size();
  }
  return sum;
}

inline void add_rows(Table &table, StructSchema shapes) {
  table.row("numbers set in a struct and its groups", 1, with(ours::set_shapes_numbers, nullptr, 0),
            [shapes](uint64_t rounds) { return set_numbers(shapes, rounds); });
  table.row("a small message built and written", 1, with(ours::set_shapes_message, nullptr, 0),
            [shapes](uint64_t rounds) { return set_message(shapes, rounds); });
}

} // namespace sets
