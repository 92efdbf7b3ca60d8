@0xc8f1a3d5e7b92460;
# Floats in lists and bound to a parameter, beside the integers that stand for them in sets.

annotation label @0xc8f1a3d5e7b92461 (field) :Text;

struct Cell(T) {
  value @0 :T;
}

struct Trace {
  gain @0 :Float64 $label("of a trace");
  levels @1 :List(List(Float32));
  floats @2 :Cell(List(Float32));
  counts @3 :Cell(List(UInt32));
  total @4 :UInt64 $label("no float");
}
