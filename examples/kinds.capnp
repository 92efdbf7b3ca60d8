# A struct with every kind of field, with and without a default.
@0xd5f1a3c2b4e69788;

enum Color { red @0; green @1; blue @2; }

struct Point { x @0 :Int16; y @1 :Int16 = -1; }

struct Kinds {
  void @0 :Void;
  truth @1 :Bool;
  lie @2 :Bool = true;
  int8 @3 :Int8 = -8;
  int16 @4 :Int16 = -16;
  int32 @5 :Int32 = -32;
  int64 @6 :Int64 = -64;
  uint8 @7 :UInt8 = 8;
  uint16 @8 :UInt16 = 16;
  uint32 @9 :UInt32 = 32;
  uint64 @10 :UInt64 = 64;
  color @11 :Color = green;
  text @12 :Text = "none";
  bytes @13 :Data = 0x"00 ff";
  point @14 :Point = (x = 3, y = 4);
  plain @15 :Point;
  numbers @16 :List(UInt16) = [1, 2, 3];
  flags @17 :List(Bool);
  voids @18 :List(Void);
  wide @19 :List(Int64);
  colors @20 :List(Color);
  texts @21 :List(Text);
  blobs @22 :List(Data);
  points @23 :List(Point);
  rows @24 :List(List(Int8));
  any @25 :AnyPointer;
  union {
    none @26 :Void;
    count @27 :UInt32;
    named :group { name @28 :Text; union { once @29 :Void; times @30 :UInt8; } }
  }
}
