@0xe5b7c9d1a3f52468;
# What sets of schemas do not have: floats, interfaces, and a default of an untyped field.

interface Clock {
  now @0 () -> (seconds :UInt64);
}

struct Point {
  x @0 :Int32;
}

const somewhere :Point = (x = 3);

struct Mixed {
  single @0 :Float32 = 1.5;
  double @1 :Float64 = -0.25;
  clock @2 :Clock;
  halves @3 :List(Float32);
  anything @4 :AnyPointer = .somewhere;
  name @5 :Text;
}
