# A schema for messages that the public `capnp` tool writes and the tests of crates/capnp_wire_tests read.
#
# One segment:
#   echo '(id = 5, level = -2, on = true, name = "hello", scores = [1, 2, 300], points = [(x = 1, y = 2), (x = -3, y = 4)])' |
#     capnp encode reading.capnp Reading
# Several segments, of 2 words where what stands in them fits:
#   echo '(id = 7, name = "far away", scores = [4, 5], points = [(x = 6, y = 7)], next = (id = 8, name = "end"))' |
#     capnp encode --segment-size=2 reading.capnp Reading

@0xb3a6f79aa46a0a09;

struct Point {
  x @0 :Int32;
  y @1 :Int32;
}

struct Reading {
  id @0 :UInt64;
  level @1 :Int8 = -1;
  on @2 :Bool;
  name @3 :Text;
  scores @4 :List(UInt16);
  points @5 :List(Point);
  next @6 :Reading;
}
