# The structs of the rows of documents, in the schema language.
@0xd1c5a0b7e9f34826;

using Cxx = import "/capnp/c++.capnp";
$Cxx.namespace("documents");

struct Tag {
  number @0 :UInt32;
  label @1 :Text;
}

struct Item {
  id @0 :UInt64;
  kind @1 :UInt16;
  name @2 :Text;
  note @3 :Text;
  numbers @4 :List(UInt32);
  tags @5 :List(Tag);
}

struct Document {
  version @0 :UInt32;
  title @1 :Text;
  items @2 :List(Item);
}

struct Measures {
  values @0 :List(Float64);
}
