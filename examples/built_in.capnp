# The structs of the program's built-in set. `Loop.again` has there a default that leads to itself, which this language
# can't write.
@0xb4ae3ca942d26e09;

struct Flat {
  a @0 :UInt16;
}

struct Mixed {
  a @0 :UInt16;
  union {
    x @1 :Void;
    y @2 :UInt8;
  }
  b @3 :Text;
}

struct Many {
  flag @0 :Bool = true;
  s @1 :Int8 = -1;
  n @2 :UInt16 = 7;
  w @3 :Int32;
  q @4 :UInt64;
  z @5 :Void;
}

struct Shapes {
  id @0 :UInt16;
  union {
    circle :group {
      r @1 :UInt32;
    }
    tag :group {
      n @2 :UInt16;
      union {
        u0 @3 :Void;
        u1 @4 :UInt8;
      }
      any @5 :AnyPointer;
      q @6 :Text;
    }
    word @7 :Text;
  }
}

struct Loop {
  union {
    end @0 :Void;
    again @1 :Loop;
  }
}

struct Lists {
  bytes @0 :List(UInt8);
  raw @1 :Data;
  t @2 :Text;
  items @3 :List(Flat);
}

enum ElementSize {
  empty @0;
  bit @1;
  byte @2;
  twoBytes @3;
  fourBytes @4;
  eightBytes @5;
  pointer @6;
  inlineComposite @7;
}

struct Node {
  id @0 :UInt64;
  displayName @1 :Text;
  size @2 :ElementSize;
}
