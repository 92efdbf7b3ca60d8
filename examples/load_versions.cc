// Loads one version of a schema after another: load_versions OLDER.request NEWER.request. It writes `loaded`, or why the
// public library's SchemaLoader refuses the second.
#include <capnp/schema-loader.h>
#include <capnp/schema.capnp.h>
#include <capnp/serialize.h>
#include <fcntl.h>
#include <kj/io.h>
#include <cstdio>
#include <unistd.h>

static void load(capnp::SchemaLoader& loader, const char* path) {
  kj::AutoCloseFd file(open(path, O_RDONLY));
  capnp::StreamFdMessageReader message(file.get());
  for (auto node : message.getRoot<capnp::schema::CodeGeneratorRequest>().getNodes()) loader.load(node);
}

int main(int count, char** words) {
  if (count != 3) return 2;
  capnp::SchemaLoader loader;
  load(loader, words[1]);
  try {
    load(loader, words[2]);
  } catch (const kj::Exception& exception) {
    puts(exception.getDescription().cStr());
    return 1;
  }
  puts("loaded");
  return 0;
}
