// Rows of documents: each has 100,000 items with two texts, a list of numbers and two tagged structs, 21.6 MB in all. One is
// copied in whole, patched by three sets and written, or a list of items is built by the dynamic API. A checksum reads what was
// set, or adds the words.
#pragma once
#include "wire.h"
#include "documents.capnp.h"
#include <capnp/dynamic.h>
#include <sys/resource.h>
#include <sys/wait.h>
#include <unistd.h>

namespace documents {

using capnp::DynamicList;
using capnp::DynamicStruct;
using capnp::Schema;
using capnp::StructSchema;
using wire::Bytes;

constexpr unsigned COUNT = 100000;

inline Bytes document() {
  capnp::MallocMessageBuilder message(27 * COUNT + 16);
  auto root = message.initRoot<Document>();
  root.setVersion(7);
  root.setTitle("a document");
  auto items = root.initItems(COUNT);
  for (unsigned i = 0; i < COUNT; i++) {
    auto item = items[i];
    item.setId(i);
    item.setKind(i);
    item.setName("a text of 20 letters");
    item.setNote("a note of some forty letters in all, so");
    auto numbers = item.initNumbers(8);
    for (unsigned k = 0; k < 8; k++) numbers.set(k, i + k);
    auto tags = item.initTags(2);
    for (unsigned k = 0; k < 2; k++) {
      tags[k].setNumber(k);
      tags[k].setLabel("a short label");
    }
  }
  return wire::bytes_of(message);
}

// what a patch has set, as it is read
inline uint64_t seen_in(kj::ArrayPtr<const capnp::word> words) {
  capnp::FlatArrayMessageReader message(words, wire::Opened::options());
  auto root = message.getRoot<Document>();
  auto items = root.getItems();
  return root.getVersion() + items[77777].getName().size() + items[5].getTags()[1].getLabel().size();
}

// the fields that a patch and a list of items set
struct Fields {
  StructSchema document = Schema::from<Document>(), item = Schema::from<Item>(), tag = Schema::from<Tag>();
  StructSchema::Field version = document.getFieldByName("version"), items = document.getFieldByName("items");
  StructSchema::Field id = item.getFieldByName("id"), kind = item.getFieldByName("kind"), name = item.getFieldByName("name"),
                      tags = item.getFieldByName("tags");
  StructSchema::Field label = tag.getFieldByName("label");
};

inline void patch_once(const Fields &fields, const Bytes &bytes, capnp::MallocMessageBuilder &message) {
  wire::Opened source(bytes);
  message.setRoot(source.reader.getRoot<DynamicStruct>(fields.document));
  auto root = message.getRoot<DynamicStruct>(fields.document);
  root.set(fields.version, uint32_t(8));
  auto item = root.get(fields.items).as<DynamicList>()[77777].as<DynamicStruct>();
  item.set(fields.name, capnp::Text::Reader("another name of 26 letters"));
  auto other = root.get(fields.items).as<DynamicList>()[5].as<DynamicStruct>();
  other.get(fields.tags).as<DynamicList>()[1].as<DynamicStruct>().set(fields.label, capnp::Text::Reader("another label"));
}

inline uint64_t patch(const Bytes &bytes, uint64_t rounds) {
  Fields fields;
  uint64_t sum = 0;
  while (rounds--) {
    capnp::MallocMessageBuilder message;
    patch_once(fields, bytes, message);
    sum += seen_in(capnp::messageToFlatArray(message));
  }
  return sum;
}

inline uint64_t write_patched(const Bytes &bytes, uint64_t rounds) {
  Fields fields;
  capnp::MallocMessageBuilder message;
  patch_once(fields, bytes, message);
  uint64_t sum = 0;
  while (rounds--) sum += seen_in(capnp::messageToFlatArray(message));
  return sum;
}

inline uint64_t build(const Bytes &, uint64_t rounds) {
  Fields fields;
  uint64_t sum = 0;
  while (rounds--) {
    capnp::MallocMessageBuilder message(9 * COUNT + 16);
    auto root = message.initRoot<DynamicStruct>(fields.document);
    auto items = root.init(fields.items, COUNT).as<DynamicList>();
    for (unsigned i = 0; i < COUNT; i++) {
      auto item = items[i].as<DynamicStruct>();
      item.set(fields.id, uint64_t(i));
      item.set(fields.kind, uint16_t(i));
      item.set(fields.name, capnp::Text::Reader("a text of 20 letters"));
    }
    sum += capnp::messageToFlatArray(message).size();
  }
  return sum;
}

// the bytes of memory that work takes at most, in a process of its own
inline long memory_of(const Work &work) {
  pid_t child = fork();
  if (child == 0) {
    work(1);
    _exit(0);
  }
  rusage used{};
  wait4(child, nullptr, 0, &used);
  return used.ru_maxrss * 1024;
}

// what a patch takes beside the message that it reads
inline void tell_memory() {
  auto source = document();
  auto patching = with(ours::patch_document, source.data(), source.size());
  long before = memory_of([](uint64_t) { return 0; });
  long ours = memory_of(patching.first()) - before;
  long theirs = memory_of([&](uint64_t rounds) { return patch(source, rounds); }) - before;
  std::printf("\nThe patch of a document of %.1f MB took %.1f MB more, the other side %.1f MB: %.2f of it.\n\n", source.size() / 1e6, ours / 1e6,
              theirs / 1e6, double(ours) / theirs);
}

inline void add_rows(Table &table) {
  auto source = document();
  wire::row(table, "a document of 21.6 MB copied, an item", COUNT, source, ours::wire_copy, wire::copy);
  wire::row(table, "a document patched by three sets and written, an item", COUNT, source, ours::patch_document, patch);
  table.row_after_start("a patched document encoded, an item", COUNT, with(ours::write_patched, source.data(), source.size()),
                        [&](uint64_t rounds) { return write_patched(source, rounds); });
  wire::row(table, "an item of a list of 100,000 built and written", COUNT, source, ours::build_items, build);
}

} // namespace documents
