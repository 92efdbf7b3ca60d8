# The structs that the rows of the wire read and build, in the schema language.
@0xa1b2c3d4e5f60718;

struct Item {
  a @0 :UInt8;
  flag @1 :Bool;
  b @2 :UInt16;
  c @3 :UInt32;
  d @4 :UInt64;
  text @5 :Text;
  next @6 :Item;
}

struct Root {
  items @0 :List(Item);
  smallNumbers @1 :List(UInt16);
  largeNumbers @2 :List(UInt64);
  blob @3 :Data;
  chain @4 :Item;
}
