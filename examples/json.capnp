# What JSON asks of a field: names, forms of data, floats, members and groups, in the order of the JSON. The annotations are
# those of json.capnp, by their numbers.
@0xe4d5a02f2bb6c1a7;

annotation name @0xfa5b1fd61c2e7c3d (*) :Text;
annotation base64 @0xd7d879450a253e4b (field) :Void;
annotation hex @0xf061e22f0ae5c7b5 (field) :Void;

enum Shade {
  light @0 $name("light-shade");
  dark @1;
}

struct Shown {
  union {
    none @0 :Void;
    inner :group {
      left @1 :Int32;
      union {
        low @2 :Int8;
        high @3 :Text;
      }
      right @4 :Int64;
    }
    blob @5 :Data $hex;
  }
  given @6 :Text $name("given-name");
  bytes @7 :Data $base64;
  half @8 :Float32;
  whole @9 :Float64;
  rows @10 :List(List(Float32));
  shades @11 :List(Shade);
  plain @12 :Data;
  parts @13 :List(Shown);
  around :group {
    first @14 :UInt8;
    second @15 :UInt16;
  }
  last @16 :Bool;
}
