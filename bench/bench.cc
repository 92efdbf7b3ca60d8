// Times this library and the C++ library side by side and prints one table. Its arguments are the folder of schema.capnp, one
// for large files, and our two programs, of each build that is timed: proved, and built by cargo.
#include "diffs.h"
#include "documents.h"
#include "json.h"
#include "prints.h"
#include "program.h"
#include "reads.h"
#include "requests.h"
#include "runs.h"
#include "schemas.h"
#include "set_messages.h"
#include "sets.h"
#include "versions.h"
#include "wire.h"
#include <capnp/schema-parser.h>
#include <kj/filesystem.h>

int main(int count, char **words) {
  // where the programs of a build stand in the words
  constexpr int PROVED = 3, CARGO = HAS_PROVED ? 5 : 3;
  if (count != 3 + (HAS_PROVED ? 2 : 0) + (HAS_CARGO ? 2 : 0)) {
    std::fprintf(stderr, "usage: bench FOLDER SCRATCH%s%s\n", HAS_PROVED ? " CAPNP_SHOW RIFTCALICO" : "",
                 HAS_CARGO ? " CARGO_CAPNP_SHOW CARGO_RIFTCALICO" : "");
    return 2;
  }
  auto program_at = [&](int at) {
    return program::OurProgram{HAS_PROVED ? words[PROVED + at] : "", HAS_CARGO ? words[CARGO + at] : ""};
  };
  documents::tell_memory();
  auto disk = kj::newDiskFilesystem();
  auto folder = disk->getRoot().openSubdir(disk->getCurrentPath().evalNative(words[1]));
  capnp::SchemaParser parser;
  auto file = parser.parseFromDirectory(*folder, kj::Path::parse("schema.capnp"), nullptr);
  Table table;
  wire::add_rows(table);
  documents::add_rows(table);
  reads::add_rows(table, file.getNested("Many").asStruct());
  sets::add_rows(table, file.getNested("Shapes").asStruct());
  runs::add_rows(table, file.getNested("Lists").asStruct(), file.getNested("Loop").asStruct());
  schemas::add_rows(table);
  set_messages::add_rows(table);
  versions::add_rows(table);
  requests::add_rows(table);
  prints::add_rows(table, file.getNested("Lists").asStruct());
  json::add_rows(table);
  program::OurProgram shows = program_at(0), patches = program_at(1);
  program::add_rows(table, file.getNested("Lists").asStruct(), words[1], words[2], shows, patches);
  diffs::add_rows(table, words[2], patches);
  return table.status();
}
