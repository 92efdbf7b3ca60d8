#!/bin/sh
# What the public language guide says of each change of a schema under "Evolving Your Protocol": pairs of schemas, older and
# newer, and what ./riftcalico compatible tells of them. It needs the tool `capnp` (Debian: capnproto). With --cargo the
# program that cargo builds is run, also where a proved one stands. Where g++ and the C++ library are there (libcapnp-dev),
# its SchemaLoader loads the one after the other, and has to take them where one of the two follows the other.

cd -- "$(dirname -- "$0")/.." || exit 1
[ "$1" = --cargo ] && export RIFTCALICO_PROGRAM=cargo
command -v capnp > /dev/null || { echo 'examples/check_versions.sh: capnp is missing' >&2; exit 3; }
scratch=$(mktemp -d) || exit 1
trap 'rm -rf -- "$scratch"' EXIT
checks=0
failures=0

fail() {
    echo "$1" >&2
    failures=$((failures + 1))
}

# made NAME TEXT: the set of a schema of this text
made() {
    printf '@0xb2c1f0a9d3e47565;\n%s\n' "$2" > "$scratch/$1.capnp"
    capnp compile -o- --src-prefix="$scratch" "$scratch/$1.capnp" > "$scratch/request" || exit 1
    cp "$scratch/request" "$scratch/$1.request"
    ./riftcalico schemas < "$scratch/request" > "$scratch/$1.set" || exit 1
}

# Where the loader answers otherwise: docs/DIFFERENCES.md says why.
loader=$scratch/load_versions
otherwise='a type has another name
a field enters a union that is new
a field enters a group that is new
a text has another default
a struct has another default
a field becomes a group
bits become structs'
if ! g++ -O1 -std=c++17 -o "$loader" examples/load_versions.cc -lcapnp -lkj 2> /dev/null; then
    echo 'examples/check_versions.sh: the C++ library is missing, so its loader is not asked' >&2
fi

# loaded CASE STATUS: the loader takes the newer version where STATUS is 0, or where the older follows the newer
loaded() {
    [ -x "$loader" ] || return
    follows=$2
    [ "$follows" -eq 0 ] || { ./riftcalico compatible "$scratch/newer.set" "$scratch/older.set" S > /dev/null; follows=$?; }
    "$loader" "$scratch/older.request" "$scratch/newer.request" > "$scratch/loaded"
    taken=$?
    [ "$taken" -eq "$follows" ] && wanted=1 || wanted=0
    echo "$otherwise" | grep -qxF -- "$1"
    [ $? -eq $wanted ] || fail "$1: the loader says $(cat "$scratch/loaded")"
}

# printed CASE WANTED: so much was printed
printed() {
    [ "$(cat "$scratch/out")" = "$2" ] || fail "$1: printed $(cat "$scratch/out"), not $2"
    [ ! -s "$scratch/err" ] || fail "$1: standard error has $(cat "$scratch/err")"
}

# told CASE LINES NOTES: the sets older and newer differ by these lines, none where the newer follows; and what is noted
told() {
    checks=$((checks + 1))
    ./riftcalico compatible --breaking-only "$scratch/older.set" "$scratch/newer.set" S > "$scratch/out" 2> "$scratch/err"
    status=$?
    [ "$status" -eq "$([ -z "$2" ] && echo 0 || echo 1)" ] || fail "$1: exit status $status"
    printed "$1" "$2"
    loaded "$1" "$status"
    ./riftcalico compatible "$scratch/older.set" "$scratch/newer.set" S > "$scratch/out" 2> "$scratch/err"
    [ $? -eq "$status" ] || fail "$1: another exit status with notes"
    printed "$1" "$2${2:+${3:+$newline}}$3"
}
newline='
'

# change CASE OLDER NEWER [LINES [NOTES]]: the fields of the struct S, before and after
change() {
    made older "struct S { $2 }"
    made newer "struct S { $3 }"
    told "$1" "$4" "$5"
}

# schema CASE OLDER NEWER [LINES [NOTES]]: the same of whole schemas
schema() {
    made older "$2"
    made newer "$3"
    told "$1" "$4" "$5"
}

# ---- changes that the guide allows ----

schema 'types, constants and annotations come' 'struct S { a @0 :Text; }' \
    'struct S { a @0 :Text; } struct T { b @0 :Int8; } const c :Int32 = 1; annotation d(field) :Text; using U = Text;'
change 'a field comes' 'a @0 :Int32;' 'a @0 :Int32; b @1 :Text;' '' 'note: S.b is new'
change 'fields that take new words come' 'a @0 :Int32;' 'a @0 :Int32; b @1 :UInt64; c @2 :List(Text); d @3 :AnyPointer;' '' 'note: S.b is new
note: S.c is new
note: S.d is new'
change 'an enumerant comes' 'a @0 :E; enum E { x @0; }' 'a @0 :E; enum E { x @0; y @1; }' '' 'note: S.a has the new enumerant y'
change 'members stand in another order' 'a @0 :Int32; b @1 :Text;' 'b @1 :Text; a @0 :Int32;'
change 'fields have other names' 'a @0 :Int32; b @1 :Text;' 'amount @0 :Int32; title @1 :Text;' '' 'note: S.a is named amount now
note: S.b is named title now'
change 'enumerants have other names' 'a @0 :E; enum E { x @0; }' 'a @0 :E; enum E { first @0; }' '' 'note: S.a has the enumerant x, which is named first now'
change 'a type has another name' 'a @0 :T; struct T { b @0 :Int8; }' 'a @0 :U; struct U { b @0 :Int8; }'
schema 'a type moves out of its struct' 'struct S { a @0 :T; struct T @0xe8d7c6b5a4f3e2d1 { b @0 :Int8; } }' \
    'struct S { a @0 :T; } struct T @0xe8d7c6b5a4f3e2d1 { b @0 :Int8; }'
change 'a union of new fields comes' 'a @0 :Int32;' 'a @0 :Int32; union { b @1 :Int32; c @2 :Text; }' '' 'note: S.b is new
note: S.c is new'
change 'a group of new fields comes' 'a @0 :Int32;' 'a @0 :Int32; g :group { b @1 :Int32; c @2 :Text; }' '' 'note: S.g is new'
change 'a union has a new member' 'union { a @0 :Int32; b @1 :Text; }' 'union { a @0 :Int32; b @1 :Text; c @2 :Data; }' '' 'note: S.c is new'
change 'elements become structs of which they are the first field' 'a @0 :List(Int32);' \
    'a @0 :List(T); struct T { b @0 :Int32; c @1 :Text; }' '' 'note: S.a has lists of structs now; so many more levels are asked of readers: 1'
change 'texts become structs of which they are the first field' 'a @0 :List(Text);' \
    'a @0 :List(T); struct T { b @0 :Text; c @1 :Int32; }' '' 'note: S.a has lists of structs now; so many more levels are asked of readers: 1'
change 'lists in a list become lists of structs in a list' 'a @0 :List(List(Int8));' \
    'a @0 :List(T); struct T { b @0 :List(U); } struct U { c @0 :Int8; }' '' 'note: S.a has lists of structs now; so many more levels are asked of readers: 2'
change 'fields of one type change their numbers, which is as if they changed their names' 'a @0 :Int32; b @1 :Int32;' \
    'b @0 :Int32; a @1 :Int32;' '' 'note: S.a is named b now
note: S.b is named a now'

# ---- changes that the guide allows, and Compatible does not ----

change 'a field enters a union that is new' 'a @0 :Int32;' 'union { a @0 :Int32; b @1 :Text; }' 'S.a entered the union: was Int32, data bit 0, default 0; is Int32, data bit 0, default 0, member 0' 'note: S.b is new'
change 'a field enters a group that is new' 'a @0 :Int32;' 'g :group { a @0 :Int32; b @1 :Text; }' \
    'S.a became a group, or is none any more: was Int32, data bit 0, default 0; is group
S.a has another type: was Int32, data bit 0, default 0; is group' 'note: S.a is named g now'
schema 'a field has the type that its generic is bound to' 'struct S { a @0 :T; } struct T { b @0 :Text; }' \
    'struct S { a @0 :T(Text); } struct T(V) { b @0 :V; }' 'T.b has another default: was Text, pointer 0, default ""; is Text, pointer 0'

# ---- changes that the guide does not allow ----

change 'a field goes' 'a @0 :Int32; b @1 :Text;' 'a @0 :Int32;' 'S.b is gone: was Text, pointer 0, default ""'
change 'a field has another type' 'a @0 :Int32;' 'a @0 :UInt32;' 'S.a has another type: was Int32, data bit 0, default 0; is UInt32, data bit 0, default 0'
change 'a text becomes data' 'a @0 :Text;' 'a @0 :Data;' 'S.a has another type: was Text, pointer 0, default ""; is Data, pointer 0, default 0x""'
change 'data becomes a list of bytes' 'a @0 :Data;' 'a @0 :List(UInt8);' 'S.a has another type: was Data, pointer 0, default 0x""; is List(UInt8), pointer 0'
change 'an enum becomes a number' 'a @0 :E; enum E { x @0; }' 'a @0 :UInt16;' 'S.a has another type: was S.E, data bit 0, default x; is UInt16, data bit 0, default 0'
change 'a list has other elements' 'a @0 :List(Int32);' 'a @0 :List(Int64);' 'S.a has another type: was List(Int32), pointer 0; is List(Int64), pointer 0'
change 'a struct becomes an untyped pointer' 'a @0 :T; struct T { b @0 :Int8; }' 'a @0 :AnyPointer;' 'S.a has another type: was S.T, pointer 0; is AnyPointer, pointer 0'
change 'a wider number moves the next' 'a @0 :Int32; b @1 :Int32;' 'a @0 :Int64; b @1 :Int32;' 'S.a has another type: was Int32, data bit 0, default 0; is Int64, data bit 0, default 0
S.b stands elsewhere: was Int32, data bit 32, default 0; is Int32, data bit 64, default 0'
change 'a field has another default' 'a @0 :Int32 = 1;' 'a @0 :Int32 = 2;' 'S.a has another default: was Int32, data bit 0, default 1; is Int32, data bit 0, default 2'
change 'a text has another default' 'a @0 :Text = "x";' 'a @0 :Text = "y";' 'S.a has another default: was Text, pointer 0, default "x"; is Text, pointer 0, default "y"'
change 'a struct has another default' 'a @0 :T = (b = 1); struct T { b @0 :Int8; }' \
    'a @0 :T = (b = 2); struct T { b @0 :Int8; }' 'S.a has another default: was S.T, pointer 0, default (b = 1); is S.T, pointer 0, default (b = 2)'
change 'an enumerant goes' 'a @0 :E; enum E { x @0; y @1; }' 'a @0 :E; enum E { x @0; }' \
    'S.a has an enum with fewer names: was S.E, data bit 0, default x; is S.E, data bit 0, default x'
change 'a field of a struct inside has another type' 'a @0 :T; struct T { b @0 :Int8; }' \
    'a @0 :T; struct T { b @0 :UInt8; }' 'S.T.b has another type: was Int8, data bit 0, default 0; is UInt8, data bit 0, default 0'
change 'a field becomes a group' 'a @0 :Int32;' 'a :group { b @0 :Int32; }' 'S.a became a group, or is none any more: was Int32, data bit 0, default 0; is group
S.a has another type: was Int32, data bit 0, default 0; is group'
change 'two fields enter a union that is new' 'a @0 :Int32; b @1 :Int32;' 'union { a @0 :Int32; b @1 :Int32; }' \
    'S.a entered the union: was Int32, data bit 0, default 0; is Int32, data bit 0, default 0, member 0
S.b stands elsewhere: was Int32, data bit 32, default 0; is Int32, data bit 0, default 0, member 1
S.b entered the union: was Int32, data bit 32, default 0; is Int32, data bit 0, default 0, member 1'
change 'a field enters a union that stands' 'a @0 :Int32; union { b @1 :Int8; c @2 :Text; }' \
    'union { a @0 :Int32; b @1 :Int8; c @2 :Text; }' "S has its union's discriminant elsewhere: was 2 members, tag at data bit 48; is 3 members, tag at data bit 32
S.a entered the union: was Int32, data bit 0, default 0; is Int32, data bit 0, default 0, member 0
S.b stands elsewhere: was Int8, data bit 32, default 0, member 0; is Int8, data bit 0, default 0, member 1
S.b has another discriminant value: was Int8, data bit 32, default 0, member 0; is Int8, data bit 0, default 0, member 1
S.c has another discriminant value: was Text, pointer 0, default \"\", member 1; is Text, pointer 0, default \"\", member 2"
change 'a field leaves a union' 'union { a @0 :Int32; b @1 :Text; c @2 :Int8; }' \
    'a @0 :Int32; union { b @1 :Text; c @2 :Int8; }' 'S has a union of fewer members: was 3 members, tag at data bit 32; is 2 members, tag at data bit 32
S.a left the union: was Int32, data bit 0, default 0, member 0; is Int32, data bit 0, default 0
S.b has another discriminant value: was Text, pointer 0, default "", member 1; is Text, pointer 0, default "", member 0
S.c stands elsewhere: was Int8, data bit 0, default 0, member 2; is Int8, data bit 48, default 0, member 1
S.c has another discriminant value: was Int8, data bit 0, default 0, member 2; is Int8, data bit 48, default 0, member 1'
change 'a union has fewer members' 'union { a @0 :Int32; b @1 :Text; c @2 :Int8; }' \
    'union { a @0 :Int32; b @1 :Text; }' 'S has a union of fewer members: was 3 members, tag at data bit 32; is 2 members, tag at data bit 32
S.c is gone: was Int8, data bit 0, default 0, member 2'
change 'a union goes' 'union { a @0 :Int32; b @1 :Text; }' 'a @0 :Int32; b @1 :Text;' 'S has no union any more: was 2 members, tag at data bit 32
S.a left the union: was Int32, data bit 0, default 0, member 0; is Int32, data bit 0, default 0
S.b left the union: was Text, pointer 0, default "", member 1; is Text, pointer 0, default ""'
change 'bits become structs' 'a @0 :List(Bool);' 'a @0 :List(T); struct T { b @0 :Bool; }' \
    'S.a has structs for elements of another kind: was List(Bool), pointer 0; is List(S.T), pointer 0'
change 'elements become structs of which another field is the first' 'a @0 :List(Int32);' \
    'a @0 :List(T); struct T { b @0 :Text; c @1 :Int32; }' 'S.a has another type: was List(Int32), pointer 0; is List(S.T), pointer 0'

# ---- all structs ----

# all CASE STATUS OPTIONS LINES: what is told of all structs of the sets older and newer
all() {
    checks=$((checks + 1))
    # shellcheck disable=SC2086
    ./riftcalico compatible $3 "$scratch/older.set" "$scratch/newer.set" > "$scratch/out" 2> "$scratch/err"
    status=$?
    [ "$status" -eq "$2" ] || fail "$1: exit status $status"
    printed "$1" "$4"
}

made older 'struct S { a @0 :T; } struct T { b @0 :Int8; } struct U { c @0 :Text; } struct V { t @0 :T; }'
made newer 'struct S { a @0 :T; } struct T { b @0 :UInt8; } struct U { c @0 :Text; d @1 :Text; } struct W { x @0 :T; }'
all 'what several lead to is told once' 1 '' 'T.b has another type: was Int8, data bit 0, default 0; is UInt8, data bit 0, default 0
note: U.d is new
note: V is gone
note: W is new
structs: 1 compatible, 2 not'
all 'only what breaks is told' 1 --breaking-only 'T.b has another type: was Int8, data bit 0, default 0; is UInt8, data bit 0, default 0
structs: 1 compatible, 2 not'
all 'only the status is wanted' 1 --quiet ''

made newer 'struct S { a @0 :T; } struct T { b @0 :Int8; } struct U { c @0 :Text; d @1 :Text; } struct V { t @0 :T; } struct W { x @0 :T; }'
all 'all are compatible' 0 '' 'note: U.d is new
note: W is new
structs: 4 compatible, 0 not'
all 'all are compatible, and nothing is said of others' 0 --breaking-only 'structs: 4 compatible, 0 not'

all 'both directions: only the old one lacks what the new one has' 1 '--both --breaking-only' 'old to new:
structs: 4 compatible, 0 not
new to old:
U.d is gone: was Text, pointer 1, default ""
structs: 3 compatible, 1 not'
all 'the status is that of both directions' 1 '--both --quiet' ''

made older 'struct S { a @0 :Int8; b @1 :Int8; } struct T { c @0 :Text; }'
made newer 'struct S { a @0 :Int8; } struct T { c @0 :Text; }'
all 'both directions: only the new one lacks what the old one has' 1 '--both' 'old to new:
S.b is gone: was Int8, data bit 8, default 0
structs: 1 compatible, 1 not
new to old:
note: S.b is new
structs: 2 compatible, 0 not'

made newer 'struct S { a @0 :Int8; c @1 :Int8; } struct T { c @0 :Text; }'
all 'both directions agree' 0 '--both' 'old to new:
note: S.b is named c now
structs: 2 compatible, 0 not
new to old:
note: S.c is named b now
structs: 2 compatible, 0 not'
all 'both directions agree, and nothing is said of others' 0 '--both --quiet' ''

[ "$failures" -eq 0 ] || exit 1
echo "$checks cases: all as expected"
