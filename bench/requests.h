// The row of a compiler's request that is converted to a checked set: 1,000 structs of 30 fields, nested in one file. The C++
// library's SchemaLoader is given the nodes of the same request. A checksum adds the numbers of structs.
#pragma once
#include "schemas.h"

namespace requests {

constexpr uint64_t FILE_ID = uint64_t(1) << 62;

inline void fill(capnp::schema::CodeGeneratorRequest::Builder request) {
  auto nodes = request.initNodes(schemas::STRUCTS + 1);
  schemas::fill_many(nodes);
  for (uint32_t number = 0; number < schemas::STRUCTS; number++) {
    nodes[number].setDisplayName("many.capnp:S" + std::to_string(number));
    nodes[number].setScopeId(FILE_ID);
  }
  auto file = nodes[schemas::STRUCTS];
  file.setId(FILE_ID);
  file.setDisplayName("many.capnp");
  file.setFile();
  auto nested = file.initNestedNodes(schemas::STRUCTS);
  for (uint32_t number = 0; number < schemas::STRUCTS; number++) {
    nested[number].setId(schemas::id_of(number));
    nested[number].setName("S" + std::to_string(number));
  }
  auto files = request.initRequestedFiles(1);
  files[0].setId(FILE_ID);
  files[0].setFilename("many.capnp");
}

// the structs of the request, without the file
inline uint64_t load(kj::ArrayPtr<const capnp::word> words, uint64_t rounds) {
  return schemas::check(words, rounds) - rounds;
}

inline void add_rows(Table &table) {
  capnp::MallocMessageBuilder message(1 << 20);
  fill(message.initRoot<capnp::schema::CodeGeneratorRequest>());
  auto request = capnp::messageToFlatArray(message);
  auto bytes = request.asBytes();
  table.row("a field of a request converted and checked, of 1,000 structs of 30", schemas::STRUCTS * schemas::FIELDS,
            with(ours::convert_request, bytes.begin(), bytes.size()), [&request](uint64_t rounds) { return load(request, rounds); });
}

} // namespace requests
