@0xc4f2b6a1d0e97a35;

# A weather station, as it is described now.
struct Station {
  title @0 :Text;
  height @1 :Int16 = -5;
  weather @2 :Weather;
  place @3 :Place;
  readings @4 :List(Reading);
  neighbours @5 :List(Station);
  union {
    closed @6 :Void;
    keeper @7 :Text;
    robot @8 :UInt32;
  }
  code @9 :UInt8 = 7;
}

struct Place {
  east @0 :Int32;
  north @1 :Int32;
  up @2 :Int16;
}

struct Reading {
  tenths @0 :Int16;
  hour @1 :UInt8;
}

enum Weather {
  sun @0;
  rain @1;
  snow @2;
}
