# The structs of the built-in set that the rows read and build, in the schema language.
@0xbf5147cbbecf40c1;

struct Many {
  flag @0 :Bool = true;
  s @1 :Int8 = -1;
  n @2 :UInt16 = 7;
  w @3 :Int32;
  q @4 :UInt64;
  z @5 :Void;
}

struct Flat {
  a @0 :UInt16;
}

struct Shapes {
  id @0 :UInt16;
  union {
    circle :group {
      r @1 :UInt32;
    }
    tag :group {
      n @2 :UInt16;
      union {
        u0 @3 :Void;
        u1 @4 :UInt8;
      }
      any @5 :AnyPointer;
      q @6 :Text;
    }
    word @7 :Text;
  }
}

struct Loop {
  union {
    end @0 :Void;
    again @1 :Loop;
  }
}

struct Lists {
  bytes @0 :List(UInt8);
  raw @1 :Data;
  t @2 :Text;
  items @3 :List(Flat);
}
