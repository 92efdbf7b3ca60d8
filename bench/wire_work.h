// What the C++ library does for the rows of the wire, by generated accessors and what they call.
#pragma once
#include "wire_messages.h"
#include <capnp/any.h>
#include <capnp/layout.h>

namespace wire {

// a message that is opened where its bytes lie
struct Opened {
  capnp::FlatArrayMessageReader reader;

  static capnp::ReaderOptions options() {
    capnp::ReaderOptions options;
    options.traversalLimitInWords = 1ull << 60;
    return options;
  }

  explicit Opened(const Bytes &bytes)
      : reader(kj::arrayPtr(reinterpret_cast<const capnp::word *>(bytes.data()), bytes.size() / 8), options()) {}

  Root::Reader root() { return reader.getRoot<Root>(); }
};

inline uint64_t open(const Bytes &bytes, uint64_t rounds) {
  uint64_t sum = 0;
  while (rounds--) {
    Opened message(bytes);
    sum += message.root().hasItems();
  }
  return sum;
}

template <class Number, unsigned COUNT> uint64_t fields(const Bytes &bytes, uint64_t rounds) {
  Opened message(bytes);
  auto item = capnp::_::PointerHelpers<Item>::getInternalReader(message.root().getChain());
  uint64_t sum = 0;
  for (uint64_t i = 0; i < rounds; i++) sum += item.getDataField<Number>((unsigned)(i % COUNT) * capnp::ELEMENTS);
  return sum;
}

inline uint64_t hops(const Bytes &bytes, uint64_t rounds) {
  Opened message(bytes);
  uint64_t sum = 0;
  while (rounds--) {
    auto item = message.root().getChain();
    for (unsigned i = 0; i < HOPS; i++) item = item.getNext();
    sum += item.getB();
  }
  return sum;
}

// what `read` says of each item, added up
template <class Read> uint64_t each_item(const Bytes &bytes, uint64_t rounds, Read read) {
  Opened message(bytes);
  auto items = message.root().getItems();
  uint64_t sum = 0;
  while (rounds--) {
    for (auto item : items) sum += read(item);
  }
  return sum;
}

inline uint64_t texts(const Bytes &bytes, uint64_t rounds) {
  return each_item(bytes, rounds, [](Item::Reader item) { return item.getText().size(); });
}

inline uint64_t data(const Bytes &bytes, uint64_t rounds) {
  return each_item(bytes, rounds, [](Item::Reader item) {
    auto pointer = capnp::_::PointerHelpers<Item>::getInternalReader(item).getPointerField(capnp::bounded<0>() * capnp::POINTERS);
    return pointer.getBlob<capnp::Data>(nullptr, capnp::bounded<0>() * capnp::BYTES).size();
  });
}

inline uint64_t structs(const Bytes &bytes, uint64_t rounds) {
  return each_item(bytes, rounds, [](Item::Reader item) { return item.getB(); });
}

inline uint64_t next(const Bytes &bytes, uint64_t rounds) {
  return each_item(bytes, rounds, [](Item::Reader item) { return item.getNext().getB(); });
}

template <class List> uint64_t sum_of(List list, uint64_t rounds) {
  uint64_t sum = 0;
  while (rounds--) {
    for (auto number : list) sum += number;
  }
  return sum;
}

inline uint64_t total_size(const Bytes &bytes, uint64_t rounds) {
  Opened message(bytes);
  uint64_t sum = 0;
  while (rounds--) sum += message.root().totalSize().wordCount;
  return sum;
}

inline uint64_t copy(const Bytes &bytes, uint64_t rounds) {
  Opened message(bytes);
  uint64_t sum = 0;
  while (rounds--) {
    capnp::MallocMessageBuilder copied;
    copied.setRoot(message.root());
    sum += !copied.getRoot<capnp::AnyPointer>().isNull();
  }
  return sum;
}

// builds a message whose first segment holds it whole, which is the best case, and encodes it
inline uint64_t build(const Bytes &, uint64_t rounds) {
  uint64_t sum = 0;
  while (rounds--) {
    capnp::MallocMessageBuilder message(8 * 10000 + 16);
    fill_items(message.initRoot<Root>().initItems(10000), true);
    sum += capnp::messageToFlatArray(message).size();
  }
  return sum;
}

// asks the longest list of nothing to be one of structs, which no segment has room for
inline uint64_t grow_past_limit(const Bytes &, uint64_t rounds) {
  uint64_t sum = 0;
  while (rounds--) {
    capnp::MallocMessageBuilder message(60);
    auto root = message.getRoot<capnp::AnyPointer>();
    root.initAs<capnp::List<capnp::Void>>((1u << 29) - 1);
    auto refusal = kj::runCatchingExceptions([&] {
      auto pointer = capnp::_::PointerHelpers<capnp::AnyPointer>::getInternalBuilder(kj::mv(root));
      pointer.getStructList(capnp::_::StructSize(1 * capnp::WORDS, 0 * capnp::POINTERS), nullptr);
    });
    sum += refusal != nullptr;
  }
  return sum;
}

// encodes a message whose first segment holds it whole
inline uint64_t encode(const Bytes &bytes, uint64_t rounds) {
  Opened message(bytes);
  capnp::MallocMessageBuilder built(bytes.size() / 8 + 16);
  built.setRoot(message.root());
  uint64_t sum = 0;
  while (rounds--) sum += capnp::messageToFlatArray(built).size();
  return sum;
}

} // namespace wire
