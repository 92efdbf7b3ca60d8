// The messages that the rows of the wire read. Each stands in one segment, but for those of far pointers.
#pragma once
#include "table.h"
#include "wire.capnp.h"
#include <capnp/message.h>
#include <capnp/serialize.h>
#include <cstring>
#include <vector>

namespace wire {

using Bytes = std::vector<uint8_t>;

constexpr unsigned HOPS = 50;

inline Bytes bytes_of(capnp::MessageBuilder &message) {
  auto words = capnp::messageToFlatArray(message);
  auto bytes = words.asBytes();
  return Bytes(bytes.begin(), bytes.end());
}

inline void fill(Item::Builder item, unsigned i) {
  item.setA(i);
  item.setFlag(i & 1);
  item.setB(i);
  item.setC(i);
  item.setD(i);
}

inline Bytes small() {
  capnp::MallocMessageBuilder message;
  auto root = message.initRoot<Root>();
  root.initItems(1);
  root.initChain();
  return bytes_of(message);
}

inline void fill_items(capnp::List<Item>::Builder items, bool with_texts) {
  for (unsigned i = 0; i < items.size(); i++) {
    auto item = items[i];
    fill(item, i);
    if (with_texts) item.setText("a text of 20 letters");
  }
}

inline Bytes items(unsigned count, bool with_texts) {
  capnp::MallocMessageBuilder message(8 * count + 16);
  fill_items(message.initRoot<Root>().initItems(count), with_texts);
  return bytes_of(message);
}

inline Bytes numbers(unsigned count) {
  capnp::MallocMessageBuilder message(2 * count);
  auto root = message.initRoot<Root>();
  auto small = root.initSmallNumbers(count);
  auto large = root.initLargeNumbers(count);
  for (unsigned i = 0; i < count; i++) {
    small.set(i, i * 7919);
    large.set(i, i * 7919ull);
  }
  return bytes_of(message);
}

// a chain of items, in segments of so many words
inline Bytes chain(unsigned words) {
  capnp::MallocMessageBuilder message(words, capnp::AllocationStrategy::FIXED_SIZE);
  auto item = message.initRoot<Root>().initChain();
  for (unsigned i = 0; i < HOPS + 5; i++) {
    fill(item, i);
    item = item.initNext();
  }
  fill(item, 7);
  return bytes_of(message);
}

// items that lead to 400 segments
inline Bytes segments() {
  capnp::MallocMessageBuilder message(5, capnp::AllocationStrategy::FIXED_SIZE);
  auto items = message.initRoot<Root>().initItems(400);
  for (unsigned i = 0; i < 400; i++) {
    fill(items[i], i);
    fill(items[i].initNext(), i);
  }
  return bytes_of(message);
}

inline Bytes blob(unsigned size) {
  capnp::MallocMessageBuilder message(size / 8 + 16);
  auto data = message.initRoot<Root>().initBlob(size);
  std::memset(data.begin(), 7, data.size());
  return bytes_of(message);
}

} // namespace wire
