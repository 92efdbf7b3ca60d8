// Rows of runs: so many calls along paths of one message, ours as one list of calls and those of the C++ library by hand. A
// checksum adds what was read, and 1 for each other call. By the numbers of a call that stand in several rows, a run grows with
// its calls and the lengths of their paths alone.
#pragma once
#include "reads.h"

namespace runs {

using capnp::DynamicList;
using capnp::DynamicStruct;
using capnp::StructSchema;

// the length of the list, and how many structs stand in one another
constexpr uint32_t ITEMS = 1000, DEPTH = 8;

// sets and gets in turn, each of a number of a struct in a list: three steps
inline uint64_t items(StructSchema lists, uint32_t calls, uint64_t rounds) {
  capnp::MallocMessageBuilder message;
  auto root = message.initRoot<DynamicStruct>(lists);
  auto list = lists.getFieldByName("items");
  root.init(list, ITEMS);
  auto a = list.getType().asList().getStructElementType().getFieldByName("a");
  uint64_t sum = 0;
  while (rounds--) {
    for (uint32_t call = 0; call < calls; call++) {
      auto item = root.get(list).as<DynamicList>()[call / 2 % ITEMS].as<DynamicStruct>();
      if (call % 2 == 0) {
        item.set(a, uint16_t(call));
        sum++;
      } else {
        sum += reads::number_of(item.get(a).asReader());
      }
    }
  }
  return sum;
}

// questions whether a struct is there that stands in so many others
inline uint64_t chain(StructSchema loop, uint32_t calls, uint32_t length, uint64_t rounds) {
  capnp::MallocMessageBuilder message;
  auto again = loop.getFieldByName("again");
  auto root = message.initRoot<DynamicStruct>(loop), end = root;
  for (uint32_t i = 0; i < DEPTH; i++) end = end.init(again).as<DynamicStruct>();
  uint64_t sum = 0;
  while (rounds--) {
    for (uint32_t call = 0; call < calls; call++) {
      auto at = root;
      for (uint32_t step = 1; step < length; step++) at = at.get(again).as<DynamicStruct>();
      sum += at.has(again);
    }
  }
  return sum;
}

inline void add_rows(Table &table, StructSchema lists, StructSchema loop) {
  auto list = [&](const char *name, uint32_t calls, OurCall ours) {
    table.row(name, calls, with(ours, nullptr, 0), [=](uint64_t rounds) { return items(lists, calls, rounds); });
  };
  auto depth = [&](const char *name, uint32_t calls, uint32_t length, OurCall ours) {
    table.row(name, calls, with(ours, nullptr, 0), [=](uint64_t rounds) { return chain(loop, calls, length, rounds); });
  };
  list("a call of 1,000, into a list: three steps", 1000, ours::run_items);
  list("a call of 10,000, into a list: three steps", 10000, ours::run_items_many);
  depth("a call of 1,000, through structs: three steps", 1000, 3, ours::run_short);
  depth("a call of 10,000, through structs: three steps", 10000, 3, ours::run_short_many);
  depth("a call of 1,000, through structs: six steps", 1000, 6, ours::run_long);
  depth("a call of 10,000, through structs: six steps", 10000, 6, ours::run_long_many);
}

} // namespace runs
