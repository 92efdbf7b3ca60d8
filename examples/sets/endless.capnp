@0xf6c8dae2b4a63579;
# A struct with endless bindings.

struct Box(T) {
  item @0 :T;
}

struct Foo(T) {
  next @0 :Foo(Box(T));
}
