@0xc4f2b6a1d0e97a35;

# A weather station, as it was first described: station.capnp is what became of this file.
struct Station {
  name @0 :Text;
  height @1 :Int16 = -5;
  weather @2 :Weather;
  place @3 :Place;
  readings @4 :List(Reading);
  neighbours @5 :List(Station);
  union {
    closed @6 :Void;
    keeper @7 :Text;
  }
}

struct Place {
  east @0 :Int32;
  north @1 :Int32;
}

struct Reading {
  tenths @0 :Int16;
}

enum Weather {
  sun @0;
  rain @1;
}
