// The rows of whole programs over a message of 50 MB: printed, patched, and one value of it shown, by ours, proved and as cargo
// built it, each if it is timed, and by the public tool or library. The time is the processor time of the process, the best
// of three.
#pragma once
#include "prints.h"
#include <capnp/serialize.h>
#include <fcntl.h>
#include <functional>
#include <string>
#include <sys/resource.h>
#include <sys/wait.h>
#include <unistd.h>

namespace program {

constexpr uint32_t COUNT = 6200000;

struct Run {
  double time = 1e300;
  long memory = 0;
  off_t written = 0;
};

// one of our programs: where it lies as it was proved, and where as cargo built it; empty where one is not timed
struct OurProgram {
  std::string proved, cargo;
};

struct OurRuns {
  Run proved, cargo;

  // the run of the first column
  const Run &first() const { return HAS_PROVED ? proved : cargo; }
};

// the standard input of each run, and its standard output
struct Files {
  std::string input, output;
};

// runs work in a process of its own, with a file as its standard input and another as its standard output
inline Run run(const char *name, const std::function<int()> &work, const Files &files) {
  Run best;
  for (int i = 0; i < 3; i++) {
    pid_t child = fork();
    if (child == 0) {
      dup2(open(files.input.c_str(), O_RDONLY), 0);
      dup2(open(files.output.c_str(), O_WRONLY | O_CREAT | O_TRUNC, 0600), 1);
      _exit(work());
    }
    int status = 0;
    rusage used{};
    wait4(child, &status, 0, &used);
    if (status != 0) {
      std::fprintf(stderr, "%s failed\n", name);
      std::exit(3);
    }
    auto of = [](timeval t) { return t.tv_sec * 1e9 + t.tv_usec * 1e3; };
    best.time = std::min(best.time, of(used.ru_utime) + of(used.ru_stime));
    best.memory = std::max(best.memory, used.ru_maxrss);
  }
  int file = open(files.output.c_str(), O_RDONLY);
  best.written = lseek(file, 0, SEEK_END);
  close(file);
  return best;
}

// a program and its words
inline std::function<int()> program(std::vector<const char *> words) {
  return [words]() mutable {
    words.push_back(nullptr);
    execvp(words[0], const_cast<char *const *>(words.data()));
    return 127;
  };
}

// runs one of our programs on these words, as each build has it that is timed
inline OurRuns run_ours(const OurProgram &ours, std::vector<const char *> words, const Files &files) {
  OurRuns runs;
  auto run_build = [&](const std::string &path) {
    words.insert(words.begin(), path.c_str());
    Run done = run(words[0], program(words), files);
    words.erase(words.begin());
    return done;
  };
  if (HAS_PROVED) runs.proved = run_build(ours.proved);
  if (HAS_CARGO) runs.cargo = run_build(ours.cargo);
  if (HAS_PROVED && HAS_CARGO && runs.cargo.written != runs.proved.written) {
    std::fprintf(stderr, "%s: wrote another number of bytes than %s\n", ours.cargo.c_str(), ours.proved.c_str());
    std::exit(1);
  }
  return runs;
}

// the same three sets as ours, by the dynamic API on a copy of the message
inline int patch(capnp::StructSchema lists) {
  capnp::StreamFdMessageReader source(0, reads::Opened::options());
  capnp::MallocMessageBuilder message;
  message.setRoot(source.getRoot<capnp::DynamicStruct>(lists));
  auto root = message.getRoot<capnp::DynamicStruct>(lists);
  root.set("t", "another text");
  auto items = root.get("items").as<capnp::DynamicList>();
  items[5].as<capnp::DynamicStruct>().set("a", 7u);
  items[COUNT - 1].as<capnp::DynamicStruct>().set("a", 8u);
  capnp::writeMessageToFd(1, message);
  return 0;
}

// one value, found by its path
inline int get(capnp::StructSchema lists) {
  capnp::StreamFdMessageReader source(0, reads::Opened::options());
  auto items = source.getRoot<capnp::DynamicStruct>(lists).get("items").as<capnp::DynamicList>();
  auto text = kj::str(items[COUNT - 1].as<capnp::DynamicStruct>().get("a"));
  std::printf("%s\n", text.cStr());
  return std::fflush(stdout);
}

inline void tell_memory(const char *what, const Run &ours, const Run &theirs, size_t message) {
  std::printf("\n%s took %ld MB for a message of %ld MB, the other side %ld MB.\n", what, ours.memory / 1000, long(message / 1000000),
              theirs.memory / 1000);
}

inline void line(Table &table, const char *name, const OurRuns &ours, const Run &theirs) {
  table.line(name, {ours.proved.time / COUNT, theirs.time / COUNT, ours.cargo.time / COUNT});
}

// writes the message that each run reads, and answers how many bytes it has
inline size_t write_message(capnp::StructSchema lists, const std::string &path) {
  auto words = prints::message_of(lists, COUNT);
  auto bytes = words.asBytes();
  FILE *file = std::fopen(path.c_str(), "wb");
  if (file == nullptr || std::fwrite(bytes.begin(), 1, bytes.size(), file) != bytes.size() || std::fclose(file) != 0) std::exit(3);
  return bytes.size();
}

inline void add_rows(Table &table, capnp::StructSchema lists, const std::string &here, const std::string &scratch,
                     const OurProgram &shows, const OurProgram &patches) {
  Files files{scratch + "/large.bin", scratch + "/large.txt"};
  std::string schema = here + "/schema.capnp";
  std::string path = "items." + std::to_string(COUNT - 1) + ".a", last = "set " + path + " 8";
  size_t size = write_message(lists, files.input);
  OurRuns shown = run_ours(shows, {"Lists"}, files);
  Run decoded = run("capnp", program({"capnp", "decode", schema.c_str(), "Lists"}), files);
  line(table, "the program, a list of 6,200,000 structs printed", shown, decoded);
  OurRuns patched = run_ours(patches, {"patch", "Lists", "set t \"another text\"", "set items.5.a 7", last.c_str()}, files);
  Run other = run("the patch in C++", [lists] { return patch(lists); }, files);
  line(table, "the program, such a message patched by three sets", patched, other);
  OurRuns got = run_ours(patches, {"get", "Lists", path.c_str()}, files);
  Run found = run("the value in C++", [lists] { return get(lists); }, files);
  line(table, "the program, one value of it shown", got, found);
  line(table, "the program, one value of it shown; the public tool, all of it, to be cut", got, decoded);
  tell_memory("The print", shown.first(), decoded, size);
  tell_memory("The patch", patched.first(), other, size);
  tell_memory("The value", got.first(), found, size);
  unlink(files.input.c_str());
  unlink(files.output.c_str());
}

} // namespace program
