// Rows of the wire: reads of a message's words, copies, and messages that are encoded.
#pragma once
#include "wire_work.h"

namespace wire {

using Call = uint64_t (*)(const Bytes &, uint64_t);

// a row over one message
inline void row(Table &table, const char *name, double things, const Bytes &bytes, OurCall ours, const Call theirs) {
  table.row(name, things, with(ours, bytes.data(), bytes.size()), [&](uint64_t rounds) { return theirs(bytes, rounds); });
}

inline void add_lists_of_numbers(Table &table) {
  auto bytes = numbers(1000000);
  table.row("a number of 16 bits in a list of 1,000,000", 1e6, with(ours::wire_small_numbers, bytes.data(), bytes.size()),
            [&](uint64_t rounds) { Opened message(bytes); return sum_of(message.root().getSmallNumbers(), rounds); });
  table.row("a number of 64 bits in a list of 1,000,000", 1e6, with(ours::wire_large_numbers, bytes.data(), bytes.size()),
            [&](uint64_t rounds) { Opened message(bytes); return sum_of(message.root().getLargeNumbers(), rounds); });
}

inline void add_reads(Table &table, const Bytes &items_of_texts) {
  auto opened = small(), near = chain(1 << 16), far = chain(6), many = segments(), large = items(1000000, false);
  row(table, "a message opened, and its root", 1, opened, ours::wire_open, open);
  row(table, "a field of 8 bits", 1, near, ours::wire_bytes, fields<uint8_t, 32>);
  row(table, "a field of 16 bits", 1, near, ours::wire_halves, fields<uint16_t, 16>);
  row(table, "a field of 64 bits", 1, near, ours::wire_words, fields<uint64_t, 4>);
  row(table, "a bit", 1, near, ours::wire_bits, fields<bool, 256>);
  row(table, "a pointer hop", HOPS + 1, near, ours::wire_hops, hops);
  row(table, "a text", 10000, items_of_texts, ours::wire_texts, texts);
  row(table, "data", 10000, items_of_texts, ours::wire_data, data);
  row(table, "a struct in a list of 10,000", 10000, items_of_texts, ours::wire_structs, structs);
  row(table, "a struct in a list of 1,000,000", 1e6, large, ours::wire_structs, structs);
  add_lists_of_numbers(table);
  row(table, "a far hop", HOPS + 1, far, ours::wire_hops, hops);
  row(table, "a far hop to one of 400 segments", 400, many, ours::wire_next, next);
  row(table, "`total_size`, a struct with a text", 10000, items_of_texts, ours::wire_total_size, total_size);
}

inline void add_writes(Table &table, const Bytes &items_of_texts) {
  auto large = blob(8 << 20);
  row(table, "a struct with a text copied", 10000, items_of_texts, ours::wire_copy, copy);
  row(table, "a blob of 8 MB copied", 1, large, ours::wire_copy, copy);
  row(table, "a struct with a text built and written", 10000, items_of_texts, ours::wire_build, build);
  row(table, "the same by calls at places", 10000, items_of_texts, ours::arena_build, build);
  row(table, "a list of 2^29 - 1 Voids asked for as structs, and refused", 1, large, ours::arena_limit, grow_past_limit);
  row(table, "a struct with a text encoded", 10000, items_of_texts, ours::wire_encode, encode);
  row(table, "a blob of 8 MB encoded", 1, large, ours::wire_encode, encode);
}

inline void add_rows(Table &table) {
  auto items_of_texts = items(10000, true);
  add_reads(table, items_of_texts);
  add_writes(table, items_of_texts);
}

} // namespace wire
