@0xc1a8f3b07a2d5e91;
# Readings of a probe: groups in groups, unions in groups, and members in another order than their numbers.

enum Unit {
  none @0;
  metre @1;
  second @2;
}

struct Reading {
  place :group {
    depth @3 :Int16 = -7;
    at :group {
      hour @2 :UInt8;
      unit @1 :Unit = second;
    }
  }
  serial @0 :UInt64 = 18446744073709551615;
  state :union {
    failed @6 :Text;
    measured :group {
      value @5 :Int32;
      kind :union {
        raw @8 :UInt16;
        scaled @7 :List(Int8);
      }
    }
    idle @4 :Void;
  }
  tags @9 :List(Text);
}

struct Series {
  readings @0 :List(Reading);
  last @1 :Reading;
}
