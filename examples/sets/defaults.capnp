@0xb2c5d8e1f4a70369;
# Defaults of every kind, lists of lists, and annotations of every target.

annotation note @0xf1a2b3c4d5e6f708 (*) :Text;
annotation rank @0xe1d2c3b4a5968778 (struct, field) :UInt32;
annotation shape @0xd1c2b3a495867768 (field) :Point;

struct Point $note("a place") {
  x @0 :Int32;
  y @1 :Int32 = -1;
}

enum Colour $note("a colour") {
  red @0 $note("the first");
  green @1;
  blue @2;
}

const origin :Point = (x = 3, y = 4);

struct Defaults $rank(2) {
  flag @0 :Bool = true;
  tiny @1 :Int8 = -128;
  small @2 :Int16 = -32768;
  plain @3 :Int32 = 2147483647;
  large @4 :Int64 = -9223372036854775808;
  utiny @5 :UInt8 = 255;
  usmall @6 :UInt16 = 65535;
  uplain @7 :UInt32 = 4294967295;
  ularge @8 :UInt64 = 18446744073709551615;
  colour @9 :Colour = blue $note("of a field");
  text @10 :Text = "a \"text\"" $rank(1);
  bytes @11 :Data = 0x"00 7f ff";
  point @12 :Point = (x = 5) $shape(x = 1, y = 2);
  flags @13 :List(Bool) = [true, false, true];
  numbers @14 :List(Int16) = [-1, 0, 1];
  words @15 :List(Text) = ["one", "two"];
  points @16 :List(Point) = [(x = 1), (y = 2)];
  rows @17 :List(List(UInt8)) = [[1, 2], [], [3]];
  colours @18 :List(Colour) = [green, red];
  nothing @19 :Void;
  anything @20 :AnyPointer;
}
