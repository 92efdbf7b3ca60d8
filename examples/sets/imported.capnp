@0xd4f6a8b0c2e41357;
# Structs and enums of other files.

using Book = import "addressbook.capnp";
using Probe = import "telemetry.capnp";

struct Visit {
  who @0 :Book.Person;
  seen @1 :List(Probe.Reading);
  unit @2 :Probe.Unit = metre;
  type @3 :Book.Person.PhoneNumber.Type = work;
}
