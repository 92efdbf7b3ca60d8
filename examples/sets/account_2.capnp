@0xb2c1f0a9d3e47565;
struct Account @0xd1e2f3a4b5c6d7e8 {
  name @0 :Text;
  balance @1 :Int32;
  kind @2 :Kind;
  enum Kind @0xe8d7c6b5a4f3e2d1 { private @0; business @1; public @2; }
  email @3 :Text;
}
