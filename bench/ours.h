// The calls of our static libraries that are timed, each a whole row's work. A call does its work `rounds` times over the
// same message and returns a checksum, which has to be that of the C++ library's work. Two libraries have them, and one or
// both are timed: the proved one (WITH_PROVED), and the one that cargo builds of the same source (WITH_CARGO), in which
// `rust_` stands before each name.
#pragma once
#include <cstddef>
#include <cstdint>

using OurFunction = uint64_t(const uint8_t *message, size_t length, uint64_t rounds);

// a call as the proved library has it, and as cargo built it; null in a library that is not timed
struct OurCall {
  OurFunction *proved, *cargo;
};

#ifdef WITH_PROVED
constexpr bool HAS_PROVED = true;
#define PROVED_CALL(NAME) bench_##NAME
#else
constexpr bool HAS_PROVED = false;
#define PROVED_CALL(NAME) nullptr
#endif

#ifdef WITH_CARGO
constexpr bool HAS_CARGO = true;
#define CARGO_CALL(NAME) rust_bench_##NAME
#else
constexpr bool HAS_CARGO = false;
#define CARGO_CALL(NAME) nullptr
#endif

#define CALL(NAME)                                                                                                               \
  extern "C" OurFunction bench_##NAME, rust_bench_##NAME;                                                                        \
  namespace ours {                                                                                                               \
  constexpr OurCall NAME{PROVED_CALL(NAME), CARGO_CALL(NAME)};                                                                   \
  }

CALL(read_by_name_opened)
CALL(read_by_name)
CALL(read_by_field_opened)
CALL(read_by_field)
CALL(find_by_name)
CALL(print_lists)
CALL(json_document)
CALL(json_floats)
CALL(document_of_json)
CALL(floats_of_json)
CALL(set_shapes_numbers)
CALL(set_shapes_message)
CALL(run_items)
CALL(run_items_many)
CALL(run_short)
CALL(run_short_many)
CALL(run_long)
CALL(run_long_many)
CALL(patch_document)
CALL(write_patched)
CALL(build_items)
CALL(check_many)
CALL(check_wide)
CALL(check_chain)
CALL(convert_request)
CALL(read_set)
CALL(compare_sets)
CALL(wire_open)
CALL(wire_bytes)
CALL(wire_halves)
CALL(wire_words)
CALL(wire_bits)
CALL(wire_hops)
CALL(wire_texts)
CALL(wire_data)
CALL(wire_structs)
CALL(wire_small_numbers)
CALL(wire_large_numbers)
CALL(wire_next)
CALL(wire_total_size)
CALL(wire_copy)
CALL(wire_build)
CALL(arena_build)
CALL(arena_limit)
CALL(wire_encode)

#undef CALL
#undef PROVED_CALL
#undef CARGO_CALL
