@0xd2a3b5f0c41e6a97;

# A set of schemas as a message: what `capnp_show --set FILE NAME` reads from FILE. The places are those of the meta set
# (`capnp_schema::meta`).
struct SetRecord {
  nodes @0 :List(NodeRecord);
  brands @1 :List(BrandRecord);
  enums @2 :List(EnumRecord);
}

struct NodeRecord {
  id @0 :UInt64;
  dataWords @1 :UInt16;
  pointers @2 :UInt16;
  discriminantCount @3 :UInt16;
  isGroup @4 :Bool;
  discriminantOffset @5 :UInt32;  # in units of 16 bits
  displayName @6 :Text;
  annotations @7 :List(AnnotationRecord);
  fields @8 :List(FieldRecord);
}

struct FieldRecord {
  discriminantValue @0 :UInt16 = 65535;  # where the field is no member of the union
  name @1 :Text;
  annotations @2 :List(AnnotationRecord);
  union {
    slot :group {
      offset @3 :UInt32;  # in units of the field's own size
      default @4 :ValueRecord;
    }
    group @5 :UInt32;  # its node
  }
}

struct AnnotationRecord {
  id @0 :UInt64;
  value @1 :ValueRecord;
}

# A value, by its kind: void 0, bool 1, int8 to int64 2 to 5, uint8 to uint64 6 to 9, enum 10, text 11, data 12, struct 13,
# list 14. This language can't write the union of the meta set, whose members all stand past its first word: so the kind
# stands here as a number, the bits of a number in the second word, and a text, data or words as data. A text has its last
# byte, zero.
struct ValueRecord {
  kind @0 :UInt16;
  number @1 :UInt64;
  content @2 :Data;
}

struct BrandRecord {
  node @0 :UInt32;
  fieldTypes @1 :List(TypeRecord);
  ownTypes @2 :List(TypeRecord);
  childTypes @3 :List(List(TypeRecord));  # those of the annotations of each field
}

# The base is the number of the public schema language's type: void 0, bool 1, int8 to int64 2 to 5, uint8 to uint64 6 to 9,
# text 12, data 13, enum 15, struct 16, any pointer 18. The number is an enum's, or a struct's brand.
struct TypeRecord {
  base @0 :UInt16;
  listCount @1 :UInt16;
  number @2 :UInt32;
}

struct EnumRecord {
  id @0 :UInt64;
  displayName @1 :Text;
  annotations @2 :List(AnnotationRecord);
  enumerants @3 :List(EnumerantRecord);
  ownTypes @4 :List(TypeRecord);
  childTypes @5 :List(List(TypeRecord));  # those of the annotations of each enumerant
}

struct EnumerantRecord {
  name @0 :Text;
  annotations @1 :List(AnnotationRecord);
}
