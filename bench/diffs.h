// Rows of the program's `diff` of two documents, equal ones and two of which one is the other patched by three sets, beside the
// C++ library, which reads both and says whether they are equal; and of one document read in whole, as `check` does it, beside a
// walk along its pointers. The time is of an item, the processor time of the process, the best of three.
#pragma once
#include "documents.h"
#include "program.h"
#include <capnp/any.h>

namespace diffs {

using documents::COUNT;
using program::Files;
using program::OurProgram;
using program::OurRuns;
using program::Run;

inline void write_file(const std::string &path, kj::ArrayPtr<const kj::byte> bytes) {
  FILE *file = std::fopen(path.c_str(), "wb");
  if (file == nullptr || std::fwrite(bytes.begin(), 1, bytes.size(), file) != bytes.size() || std::fclose(file) != 0) std::exit(3);
}

// the document patched by three sets
inline void write_newer(const std::string &path, const wire::Bytes &bytes) {
  documents::Fields fields;
  capnp::MallocMessageBuilder message;
  documents::patch_once(fields, bytes, message);
  write_file(path, capnp::messageToFlatArray(message).asBytes());
}

// reads two messages and says whether they are equal
inline int compare(const std::string &older, const std::string &newer) {
  capnp::StreamFdMessageReader first(open(older.c_str(), O_RDONLY), reads::Opened::options());
  capnp::StreamFdMessageReader second(open(newer.c_str(), O_RDONLY), reads::Opened::options());
  bool same = first.getRoot<capnp::AnyStruct>() == second.getRoot<capnp::AnyStruct>();
  std::printf("%d\n", same);
  return std::fflush(stdout);
}

// follows each pointer of a document
inline int walk() {
  capnp::StreamFdMessageReader source(0, reads::Opened::options());
  std::printf("%zu\n", size_t(source.getRoot<capnp::AnyPointer>().targetSize().wordCount));
  return std::fflush(stdout);
}

inline void item_line(Table &table, const char *name, const OurRuns &ours, const Run &theirs) {
  table.line(name, {ours.proved.time / COUNT, theirs.time / COUNT, ours.cargo.time / COUNT});
}

inline void add_rows(Table &table, const std::string &scratch, const OurProgram &ours) {
  auto source = documents::document();
  Files files{scratch + "/document.bin", scratch + "/calls.txt"};
  std::string same = scratch + "/same.bin", newer = scratch + "/newer.bin", set = scratch + "/documents.set";
  for (auto &path : {files.input, same}) write_file(path, kj::ArrayPtr<const kj::byte>(source.data(), source.size()));
  write_newer(newer, source);
  auto diff = [&](const char *name, const std::string &other) {
    OurRuns told = run_ours(ours, {"diff", "--set", set.c_str(), "Document", files.input.c_str(), other.c_str()}, files);
    item_line(table, name, told, run("the comparison in C++", [&] { return compare(files.input, other); }, files));
  };
  OurRuns checked = run_ours(ours, {"check", "--set", set.c_str(), "Document"}, files);
  item_line(table, "the program, a document of 21.6 MB checked; C++, its size", checked, run("the size in C++", walk, files));
  diff("the program, the calls between two equal documents", same);
  diff("the program, the calls between two that differ in three fields", newer);
  for (auto &path : {files.input, files.output, same, newer}) unlink(path.c_str());
}

} // namespace diffs
