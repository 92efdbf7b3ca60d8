@0xa7d3c1e5b9f20486;
# A generic struct with several bindings, in others and in itself.

struct Box(T) {
  item @0 :T;
  next @1 :Box(T);
}

struct Pair(A, B) {
  first @0 :A;
  second @1 :B;
  union {
    none @2 :Void;
    swapped @3 :Pair(B, A);
  }

  struct Half {
    left @0 :A;
  }
}

struct Shelf {
  texts @0 :Box(Text);
  nested @1 :Box(Box(Text));
  pairs @2 :List(Pair(Text, Data));
  half @3 :Pair(Box(Text), Text).Half;
  any @4 :Box;
}
