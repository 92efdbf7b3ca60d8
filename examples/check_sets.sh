#!/bin/sh
# From schemas to printed lines: runs ./capnp_set on the compiler's requests for the schemas of examples/sets, and
# ./capnp_show on messages under the sets, and compares each line with that of `capnp decode --short`. It needs the tool
# `capnp` and its schemas (Debian: capnproto and libcapnp-dev); without them only what stands in this folder is run.
# With --cargo the programs that cargo builds are run, also where proved ones stand.

cd -- "$(dirname -- "$0")/.." || exit 1
[ "$1" = --cargo ] && export RIFTCALICO_PROGRAM=cargo
scratch=$(mktemp -d) || exit 1
trap 'rm -rf -- "$scratch"' EXIT
checks=0
failures=0

fail() {
    echo "$1" >&2
    failures=$((failures + 1))
}

# expect CASE STATUS WANTED_STATUS OUTPUT ERRORS: what a run wrote stands in the scratch folder
expect() {
    checks=$((checks + 1))
    [ "$2" -eq "$3" ] || fail "$1: exit status $2, not $3"
    [ "$(cat "$scratch/out")" = "$4" ] || fail "$1: printed $(cat "$scratch/out"), not $4"
    [ "$(cat "$scratch/err")" = "$5" ] || fail "$1: standard error has $(cat "$scratch/err"), not $5"
    : > "$scratch/out"
}

# show SET NAME LINE: the message in the scratch folder is printed as LINE
show() {
    ./capnp_show --set "$scratch/$1.set" "$2" < "$scratch/message" > "$scratch/out" 2> "$scratch/err"
    expect "$1 $2" $? 0 "$3" ''
}

# converted FILE NOTES: the request for a schema of examples/sets is converted with these notes
converted() {
    (cd examples/sets && capnp compile -o- "$1.capnp") > "$scratch/request"
    ./capnp_set < "$scratch/request" > "$scratch/$1.set" 2> "$scratch/err"
    : > "$scratch/out"
    expect "the set of $1" $? 0 '' "$2"
}

# row FILE NAME TEXT [LINE [FLOATS]]: a message that `capnp encode` makes of TEXT is printed as LINE; without one, as by
# `capnp decode --short` but for members without a value. By `riftcalico` as FLOATS, where that is there
row() {
    printf '%s\n' "$3" | capnp encode "examples/sets/$1.capnp" "$2" > "$scratch/message"
    line=$4
    [ -n "$line" ] || line=$(capnp decode --short "examples/sets/$1.capnp" "$2" < "$scratch/message" | sed 's/ = void/ = ()/g')
    show "$1" "$(printf '%s' "$2" | sed 's/,/, /g')" "$line"
    cat "$scratch/message" >> "$scratch/stream.$1.$2"
    printf '%s\n' "${5:-$line}" >> "$scratch/lines.$1.$2"
}

# streamed FILE.NAME: the messages of all rows of a struct, one after another, are printed as their lines
streamed() {
    name=$(printf '%s' "${1#*.}" | sed 's/,/, /g')
    ./riftcalico show --each --set "$scratch/${1%%.*}.set" "$name" < "$scratch/stream.$1" > "$scratch/out" 2> "$scratch/err"
    expect "all messages of $1" $? 0 "$(cat "$scratch/lines.$1")" ''
}

# listed FILE NAME TEXT: the fields of a struct are told as TEXT
listed() {
    ./riftcalico structs --set "$scratch/$1.set" "$2" > "$scratch/out" 2> "$scratch/err"
    expect "the fields of $1 $2" $? 0 "$3" ''
}

# refused FILE WORDS NUMBER: the request for a schema of examples/sets is refused
refused() {
    (cd examples/sets && capnp compile -o- "$1.capnp") > "$scratch/request"
    # shellcheck disable=SC2086 # no option is no word
    ./capnp_set $2 < "$scratch/request" > "$scratch/out" 2> "$scratch/err"
    expect "$1 $2" $? 1 '' "refused: $3"
}

# ---- what stands in this folder ----

./capnp_set < examples/addressbook.request > "$scratch/addressbook.set" || exit 1
cp examples/addressbook.bin "$scratch/message"
show addressbook AddressBook '(people = [(id = 123, name = "Alice", email = "alice@example.com", phones = [(number = "555-1212", type = mobile)], employment = (school = "MIT")), (id = 456, name = "Bob", email = "bob@example.com", phones = [(number = "555-4567", type = home), (number = "555-7654", type = work)], employment = (unemployed = ()))])'

./capnp_set < /dev/null > "$scratch/out" 2> "$scratch/err"
expect 'no bytes' $? 1 '' 'refused: 2'
head -c 100 examples/addressbook.request | ./capnp_set > "$scratch/out" 2> "$scratch/err"
expect 'a request cut short' $? 1 '' 'refused: 2'
./capnp_set < . > "$scratch/out" 2> "$scratch/err"
expect 'a directory as input' $? 1 '' 'refused: 12'
./capnp_set < examples/addressbook.request > /dev/full 2> "$scratch/err"
expect 'a full output' $? 1 '' 'refused: 13'
for words in --help strict '--strict --strict' x; do
    # shellcheck disable=SC2086 # some are several words
    ./capnp_set $words < examples/addressbook.request > "$scratch/out" 2> "$scratch/err"
    expect "words '$words'" $? 2 '' 'usage: capnp_set [--strict]'
done

# ---- what the tool makes ----

command -v capnp > "$scratch/which" || {
    [ "$failures" -eq 0 ] || exit 1
    echo "$checks cases: all as expected; without the tool capnp no schema was compiled"
    exit 0
}

converted addressbook ''
row addressbook AddressBook '()'
row addressbook AddressBook '(people = [(id = 1, name = "A", employment = (unemployed = void)), (employment = (employer = "B"))])'
row addressbook Person '(id = 1, name = "\"q\"\n", employment = (employer = ""))'
row addressbook Person.PhoneNumber '(number = "0")'

converted telemetry ''
row telemetry Reading '(serial = 5, place = (depth = -3, at = (hour = 23, unit = metre)), state = (measured = (value = -40, kind = (scaled = [1, -2, 3]))), tags = ["a", ""])'
row telemetry Reading '(state = (measured = (kind = (raw = 65535))))'
row telemetry Reading '(state = (failed = "cold"))'
row telemetry Reading '()'
row telemetry Series '(readings = [(serial = 1), (state = (measured = (value = 7)))], last = (serial = 2, state = (idle = void)))'

converted defaults ''
row defaults Defaults '()'
row defaults Defaults '(flag = false, tiny = 0, small = 1, plain = 2, large = 3, utiny = 4, usmall = 5, uplain = 6, ularge = 7, colour = red, text = "", point = (y = 2), flags = [true], numbers = [-32768], words = ["w", ""], points = [(), (x = 1)], rows = [[1], [], [2, 3]], colours = [green, red])'
row defaults Defaults '(bytes = 0x"00 ff")' '(flag = true, tiny = -128, small = -32768, plain = 2147483647, large = -9223372036854775808, utiny = 255, usmall = 65535, uplain = 4294967295, ularge = 18446744073709551615, colour = blue, bytes = 0x"00ff", nothing = ())'
row defaults Point '(x = -2147483648)'
listed defaults Point 'struct Point $@0xf1a2b3c4d5e6f708 = "a place"
x: Int32, data bit 0, default 0
y: Int32, data bit 32, default -1'
listed defaults Defaults 'struct Defaults $@0xe1d2c3b4a5968778 = 2
flag: Bool, data bit 0, default true
tiny: Int8, data bit 8, default -128
small: Int16, data bit 16, default -32768
plain: Int32, data bit 32, default 2147483647
large: Int64, data bit 64, default -9223372036854775808
utiny: UInt8, data bit 128, default 255
usmall: UInt16, data bit 144, default 65535
uplain: UInt32, data bit 160, default 4294967295
ularge: UInt64, data bit 192, default 18446744073709551615
colour: Colour, data bit 256, default blue $@0xf1a2b3c4d5e6f708 = "of a field"
text: Text, pointer 0, default "a \"text\"" $@0xe1d2c3b4a5968778 = 1
bytes: Data, pointer 1, default 0x"007fff"
point: Point, pointer 2, default (x = 5, y = -1) $@0xd1c2b3a495867768 = (x = 1, y = 2)
flags: List(Bool), pointer 3, default [true, false, true]
numbers: List(Int16), pointer 4, default [-1, 0, 1]
words: List(Text), pointer 5, default ["one", "two"]
points: List(Point), pointer 6, default [(x = 1, y = -1), (x = 0, y = 2)]
rows: List(List(UInt8)), pointer 7, default [[1, 2], [], [3]]
colours: List(Colour), pointer 8, default [green, red]
nothing: Void
anything: AnyPointer, pointer 9
enum Colour $@0xf1a2b3c4d5e6f708 = "a colour": red $@0xf1a2b3c4d5e6f708 = "the first", green, blue'

converted generics ''
row generics Shelf '(texts = (item = "a", next = (item = "b")), nested = (item = (item = "c")), half = (left = (item = "h")))'
row generics Shelf '()'
row generics Shelf '(pairs = [(first = "x", swapped = (second = "x"))])'
row generics 'Box(Text)' '(item = "alone")'
row generics 'Box(Box(Text))' '(item = (item = "in"), next = (item = ()))'
row generics 'Pair(Text,Data)' '(first = "f", none = void)'

converted imported ''
row imported Visit '(who = (id = 7, name = "Carol", employment = (selfEmployed = void)), seen = [(serial = 3, state = (idle = void))], unit = none)'
row imported Visit '()'

converted standins 'Mixed.single: Float32 stands as UInt32
Mixed.double: Float64 stands as UInt64
Mixed.clock: an interface stands as AnyPointer
Mixed.halves: Float32 stands as UInt32
Mixed.anything: the default of an untyped field is left out'
row standins Mixed '(single = 1, double = -1.5, halves = [0.5, 2], name = "n")' \
    '(single = 1065353216, double = 13832806255468478464, halves = [1056964608, 1073741824], name = "n")' \
    '(single = 1, double = -1.5, halves = [0.5, 2], name = "n")'
row standins Mixed '()' '(single = 1069547520, double = 13821547256400052224)' '(single = 1.5, double = -0.25)'
refused standins --strict 60
listed standins Mixed 'single: Float32, data bit 0, default 1.5 $@0xf20fbfb08027d505 = ()
double: Float64, data bit 64, default -0.25 $@0xf20fbfb08027d505 = ()
clock: AnyPointer, pointer 0
halves: List(Float32), pointer 1 $@0xf20fbfb08027d505 = ()
anything: AnyPointer, pointer 2
name: Text, pointer 3, default ""'

# fields of floats are marked, and a generic bound to a list of floats is a struct of its own
converted floats 'Trace.gain: Float64 stands as UInt64
Trace.levels: Float32 stands as UInt32
Trace.floats: Float32 stands as UInt32'
listed floats Trace 'gain: Float64, data bit 0, default 0 $@0xc8f1a3d5e7b92461 = "of a trace" $@0xf20fbfb08027d505 = ()
levels: List(List(Float32)), pointer 0 $@0xf20fbfb08027d505 = ()
floats: Cell(List(Float32)), pointer 1
counts: Cell(List(UInt32)), pointer 2
total: UInt64, data bit 64, default 0 $@0xc8f1a3d5e7b92461 = "no float"'
listed floats 'Cell(List(Float32))' 'value: List(Float32), pointer 0 $@0xf20fbfb08027d505 = ()'
listed floats 'Cell(List(UInt32))' 'value: List(UInt32), pointer 0'
row floats Trace '(gain = 1.5, levels = [[0.5], []], floats = (value = [2]), counts = (value = [2]), total = 7)' \
    '(gain = 4609434218613702656, levels = [[1056964608], []], floats = (value = [1073741824]), counts = (value = [2]), total = 7)' \
    '(gain = 1.5, levels = [[0.5], []], floats = (value = [2]), counts = (value = [2]), total = 7)'
row floats 'Cell(List(Float32))' '(value = [-1])' '(value = [3212836864])' '(value = [-1])'
# words set them as floats, as the tool reads them, and replies tell them so
./riftcalico new --set "$scratch/floats.set" Trace 'set gain 1.5' 'get gain' 'initn levels 1' 'initn levels.0 3' 'set levels.0.0 -0.1' \
    'set levels.0.1 1e39' 'set total 3' > "$scratch/out" 2> "$scratch/err"
expect 'a float past its range' $? 2 '' "6: set levels.0.1 1e39: can't be read at 19; wanted: a number, inf, -inf or nan"
./riftcalico new --set "$scratch/floats.set" Trace 'set gain 1.5' 'get gain' 'initn levels 1' 'initn levels.0 3' 'set levels.0.0 -0.1' \
    'set levels.0.1 inf' 'set levels.0.2 16777217' 'get levels.0.2' 'set total 3' 'get total' > "$scratch/patched" 2> "$scratch/err"
status=$?
capnp decode --short examples/sets/floats.capnp Trace < "$scratch/patched" > "$scratch/out"
expect 'floats that words set' $status 0 '(gain = 1.5, levels = [[-0.1, inf, 16777216]], total = 3)' '2: get gain = 1.5
8: get levels.0.2 = 16777216
10: get total = 3'
./riftcalico json --set "$scratch/floats.set" Trace levels.0.0 < "$scratch/patched" > "$scratch/out" 2> "$scratch/err"
expect 'a float at a path as JSON' $? 0 '-0.1' ''
# elements of lists of floats are read as floats, too
./riftcalico patch --set "$scratch/floats.set" Trace 'append levels.0 1.5' 'insert levels.0.0 -inf' 'resize levels 2' 'copy levels.1 levels.0' \
    'remove levels.0.1' 'get levels.0.1' 'append floats.value 2.5' 'append counts.value 2' < "$scratch/patched" > "$scratch/message" 2> "$scratch/err"
status=$?
capnp decode --short examples/sets/floats.capnp Trace < "$scratch/message" > "$scratch/out"
expect 'floats in lists that words edit' $status 0 '(gain = 1.5, levels = [[-inf, inf, 16777216, 1.5], [-inf, -0.1, inf, 16777216, 1.5]], floats = (value = [2.5]), counts = (value = [2]), total = 3)' \
    '6: get levels.0.1 = inf'
./riftcalico patch --set "$scratch/floats.set" Trace 'set levels [[1.5],[-0.1,"inf"]]' 'append levels [2]' 'set floats {"value":[2.5]}' \
    'get levels.1.0' < "$scratch/patched" > "$scratch/message" 2> "$scratch/err"
status=$?
capnp decode --short examples/sets/floats.capnp Trace < "$scratch/message" > "$scratch/out"
expect 'floats in lists as JSON' $status 0 '(gain = 1.5, levels = [[1.5], [-0.1, inf], [2]], floats = (value = [2.5]), total = 3)' \
    '4: get levels.1.0 = -0.1'

# lists of each kind are edited, and parts copied
(cd examples && capnp compile -o- kinds.capnp) | ./riftcalico schemas > "$scratch/kinds.set"
./riftcalico new --set "$scratch/kinds.set" Kinds 'append flags true' 'append flags false' 'insert flags.1 true' 'append voids ()' \
    'append voids ()' 'remove voids.1' 'append wide -1' 'insert wide.0 9223372036854775807' 'append colors blue' 'append colors 7' \
    'append texts "a\"b"' 'append texts c d' 'insert texts.0 ' 'append blobs 0x"00ff"' 'resize points 2' 'set points.1.x 5' \
    'copy points.0 points.1' 'resize rows 2' 'append rows.1 -5' 'append rows.1 6' 'remove rows.0' 'append numbers 9' 'copy text texts.1' \
    'copy point points.0' 'append points 1' > "$scratch/out" 2> "$scratch/err"
expect 'an element that is no object' $? 2 '' "25: append points 1: can't be read at 14; wanted: (name = value, ..) or a JSON object"
./riftcalico new --set "$scratch/kinds.set" Kinds 'append flags true' 'append flags false' 'insert flags.1 true' 'append voids ()' \
    'append voids ()' 'remove voids.1' 'append wide -1' 'insert wide.0 9223372036854775807' 'append colors blue' 'append colors 7' \
    'append texts "a\"b"' 'append texts c d' 'insert texts.0 ' 'append blobs 0x"00ff"' 'resize points 2' 'set points.1.x 5' \
    'copy points.0 points.1' 'resize rows 2' 'append rows.1 -5' 'append rows.1 6' 'remove rows.0' 'append numbers 9' 'copy text texts.1' \
    'copy point points.0' > "$scratch/message" 2> "$scratch/err"
status=$?
capnp decode --short examples/kinds.capnp Kinds < "$scratch/message" > "$scratch/out"
expect 'lists of each kind' $status 0 '(void = void, truth = false, lie = true, int8 = -8, int16 = -16, int32 = -32, int64 = -64, uint8 = 8, uint16 = 16, uint32 = 32, uint64 = 64, color = green, text = "a\"b", point = (x = 5, y = -1), numbers = [1, 2, 3, 9], flags = [true, true, false], voids = [void], wide = [9223372036854775807, -1], colors = [blue, (7)], texts = ["", "a\"b", "c d"], blobs = ["\000\377"], points = [(x = 5, y = -1), (x = 5, y = -1)], rows = [[-5, 6]], none = void)' ''

# structs, lists and groups by their JSON texts: the message is the public tool's, of the same values
./riftcalico new --set "$scratch/kinds.set" Kinds 'set point {"x":5}' 'set plain {"x":1,"y":2}' 'set numbers []' 'set flags [true,false]' \
    'set voids [null,null]' 'set wide [1,"-2"]' 'set colors ["red",2]' 'set texts ["a","b\u00e9"]' 'set blobs [[1,2],[255]]' \
    'set points [{"x":1},{"y":2}]' 'set rows [[1,2],[],[-3]]' 'set named {"name":"n","times":5}' > "$scratch/message" 2> "$scratch/err"
status=$?
capnp decode --short examples/kinds.capnp Kinds < "$scratch/message" > "$scratch/out"
expect 'structs and lists as JSON' $status 0 '(void = void, truth = false, lie = true, int8 = -8, int16 = -16, int32 = -32, int64 = -64, uint8 = 8, uint16 = 16, uint32 = 32, uint64 = 64, color = green, point = (x = 5, y = -1), plain = (x = 1, y = 2), numbers = [], flags = [true, false], voids = [void, void], wide = [1, -2], colors = [red, blue], texts = ["a", "bé"], blobs = ["\001\002", "\377"], points = [(x = 1, y = -1), (x = 0, y = 2)], rows = [[1, 2], [], [-3]], named = (name = "n", times = 5))' ''
printf '(point = (x = 5), plain = (x = 1, y = 2), numbers = [], flags = [true, false], voids = [void, void], wide = [1, -2], colors = [red, blue], texts = ["a", "bé"], blobs = [0x"01 02", 0x"ff"], points = [(x = 1), (y = 2)], rows = [[1, 2], [], [-3]], named = (name = "n", times = 5))\n' |
    capnp encode examples/kinds.capnp Kinds > "$scratch/wanted"
cmp -- "$scratch/message" "$scratch/wanted" || fail 'structs and lists as JSON: the tool makes other bytes'
./riftcalico patch --set "$scratch/kinds.set" Kinds 'append points {"x":7}' 'insert points.0 {}' 'set points.1 {"x":9}' 'append rows [4]' \
    'set rows.1 [5,6]' 'get rows.1.0' 'get points.1.x' < "$scratch/message" > "$scratch/patched" 2> "$scratch/err"
status=$?
./riftcalico get --set "$scratch/kinds.set" Kinds points rows < "$scratch/patched" > "$scratch/out" 2>> "$scratch/err"
expect 'elements as JSON' $status 0 '[(x = 0, y = -1), (x = 9, y = -1), (x = 0, y = 2), (x = 7, y = -1)]
[[1, 2], [5, 6], [-3], [4]]' '6: get rows.1.0 = 5
7: get points.1.x = 9'
refused endless '' 66

# met CASE TEXT TOLD: where names meet in JSON, both verbs are refused before they read, and the public tool ends
met() {
    printf '@0xc8f1a3d5e7b92479;\nannotation name @0xfa5b1fd61c2e7c3d (*) :Text;\n%s\n' "$2" > "$scratch/met.capnp"
    (cd "$scratch" && capnp compile -o- met.capnp) > "$scratch/request"
    ./capnp_set < "$scratch/request" > "$scratch/met.set" 2> "$scratch/err"
    for verb in json from-json; do
        ./riftcalico $verb --set "$scratch/met.set" Person < /dev/null > "$scratch/out" 2> "$scratch/err"
        expect "$1: $verb" $? 1 '' "refused: 69 JsonNamesMeet ($scratch/met.set) in $3"
    done
    ! echo '{}' | capnp convert json:binary "$scratch/met.capnp" Person > "$scratch/out" 2> /dev/null || fail "$1: the tool goes on"
}
met 'two fields of one name' 'struct Person { id @0 :UInt32; name @1 :Text; email @2 :Text $name("name"); }' 'Person: email, name'
met 'a member and a field' 'struct Person { id @0 :UInt32; union { a @1 :Text; b @2 :Text $name("id"); } }' 'Person: b, id'
met 'fields of a group' 'struct Person { at :group { x @0 :Text $name("z"); y @1 :Text; z @2 :Text; } }' 'Person.at: x, z'
met 'two enumerants' 'struct Person { shade @0 :Shade; } enum Shade { dark @0; dim @1 $name("dark"); }' 'Shade: dim, dark'
./riftcalico show --set "$scratch/met.set" Person < /dev/null > "$scratch/out" 2> "$scratch/err"
expect 'names that meet are shown' $? 1 '' 'refused: 2 Truncated (standard input)'

# each binding of a generic has a copy of its defaults, and a set that is too large is refused before all are made
{
    printf '@0xc8f1a3d5e7b92478;\nstruct Large(T) { item @0 :T; data @1 :Data = 0x"%020000d"; }\nstruct Holder {\n' 0
    for number in 0 1 2 3 4 5 6 7 8 9; do
        printf 'struct S%s {}\nf%s @%s :Large(S%s);\n' "$number" "$number" "$number" "$number"
    done
    echo '}'
} > "$scratch/large.capnp"
capnp compile -o- "$scratch/large.capnp" > "$scratch/request"
./riftcalico schemas --limit 50000 < "$scratch/request" > "$scratch/out" 2> "$scratch/err"
expect 'a generic bound ten times, past a limit' $? 1 '' 'refused: 11 TooLarge (standard input)'
./riftcalico schemas --limit 200000 < "$scratch/request" > "$scratch/large.set" 2> "$scratch/err"
expect 'the same within one' $? 0 '' ''

# no more than 1,024 types are bound in one entry, also in one that is only named: 66 comes before a limit of the lists
for count in 1024 1025; do
    awk -v "count=$count" 'BEGIN {
        for (i = 0; i < count; i++) { parameters = parameters (i ? ", " : "") "P" i; texts = texts (i ? ", " : "") "Text" }
        print "@0xbf5147bd4fa0f7c4;\nstruct Wide(" parameters ") {}\nstruct Use { wide @0 :Wide(" texts "); }"
    }' > "$scratch/wide.capnp"
    capnp compile -o- "$scratch/wide.capnp" > "$scratch/request"
    wanted='11 TooLarge'
    [ "$count" -eq 1024 ] || wanted='66 TooManyTypes'
    ./riftcalico schemas --limit 100 < "$scratch/request" > "$scratch/out" 2> "$scratch/err"
    expect "$count types bound" $? 1 '' "refused: $wanted (standard input)"
done

# the compiler's own schema: 35 entries, under which a request is shown
schema=$(echo /usr/include/capnp/schema.capnp)
[ ! -f "$schema" ] || {
    capnp compile -o- "$schema" > "$scratch/request"
    ./capnp_set < "$scratch/request" > "$scratch/schema.set" 2> "$scratch/err"
    expect 'the set of schema.capnp' $? 0 '' 'Value.float32: Float32 stands as UInt32
Value.float64: Float64 stands as UInt64'
    cp examples/addressbook.request "$scratch/message"
    show schema CodeGeneratorRequest "$(capnp decode --short "$schema" CodeGeneratorRequest < "$scratch/message" | sed 's/ = void/ = ()/g')"
}

# versions OLD NEW STATUS TEXT: what differs between two versions of Account
versions() {
    ./riftcalico compatible "$scratch/$1.set" "$scratch/$2.set" Account > "$scratch/out" 2> "$scratch/err"
    expect "$2 behind $1" $? "$3" "$4" ''
}

for version in 1 2 3; do
    converted "account_$version" ''
done
row account_1 Account '(name = "it'"'"'s \a\001\177\302\240\303\251")' \
    '(name = "it'"'"'s \u{7}\u{1}\u{7f}\u{a0}é", balance = 0, kind = private)'
printf '(kind = public)' | capnp encode examples/sets/account_2.capnp Account > "$scratch/message"
show account_1 Account '(balance = 0, kind = 2)'

versions account_1 account_1 0 ''
versions account_1 account_2 0 'note: Account.kind has the new enumerant public
note: Account.email is new'
versions account_2 account_1 1 'Account.kind has an enum with fewer names: was Account.Kind, data bit 32, default private; is Account.Kind, data bit 32, default private
Account.email is gone: was Text, pointer 1, default ""'
versions account_2 account_3 1 'Account.balance has another type: was Int32, data bit 0, default 0; is Int64, data bit 0, default 0
Account.kind stands elsewhere: was Account.Kind, data bit 32, default private; is Account.Kind, data bit 64, default private'

for stream in "$scratch"/stream.*; do
    streamed "${stream##*/stream.}"
done

[ "$failures" -eq 0 ] || exit 1
echo "$checks cases: all as expected"
