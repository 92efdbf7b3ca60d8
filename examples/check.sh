#!/bin/sh
# Runs ./capnp_show and ./riftcalico on the messages of this folder and on what they refuse, and compares what they print and
# answer. First ./check_docs holds the documents to the repository.
# Where the tool `capnp` is installed, the messages are also made again, and each has to come out the same.
# With --cargo the programs that cargo builds are run, also where proved ones stand.

cd -- "$(dirname -- "$0")/.." || exit 1
[ "$1" = --cargo ] && export RIFTCALICO_PROGRAM=cargo
scratch=$(mktemp -d) || exit 1
trap 'rm -rf -- "$scratch"' EXIT
checks=0
failures=0

fail() {
    echo "$1" >&2
    failures=$((failures + 1))
}

# expect CASE STATUS WANTED_STATUS OUTPUT ERRORS: what a run wrote stands in the scratch folder
expect() {
    checks=$((checks + 1))
    [ "$2" -eq "$3" ] || fail "$1: exit status $2, not $3"
    [ "$(cat "$scratch/out")" = "$4" ] || fail "$1: printed $(cat "$scratch/out"), not $4"
    [ "$(cat "$scratch/err")" = "$5" ] || fail "$1: standard error has $(cat "$scratch/err"), not $5"
    : > "$scratch/out"
}

# message FILE WORDS TEXT OPTIONS LINE: `capnp encode OPTIONS` makes FILE from TEXT, and for these words it is printed as LINE
message() {
    # shellcheck disable=SC2086 # the name of a struct, and after it perhaps --indent
    ./capnp_show $2 < "examples/$1" > "$scratch/out" 2> "$scratch/err"
    expect "$1" $? 0 "$5" ""
    if command -v capnp > "$scratch/which"; then
        # shellcheck disable=SC2086 # no option is no word
        printf '%s\n' "$3" | capnp encode $4 examples/built_in.capnp "${2%% *}" > "$scratch/made"
        cmp -- "$scratch/made" "examples/$1" || fail "$1: capnp makes other bytes"
    fi
}

# what the documents say of the repository
./check_docs > "$scratch/out" 2> "$scratch/err"
expect 'the documents' $? 0 'check_docs: 0 things do not hold' ''

# builds the program where needed, so that the runs below write nothing else
./capnp_show Flat < examples/flat.bin > "$scratch/out" || exit 1

message flat.bin Flat '(a = 5)' '' '(a = 5)'
message many.bin Many '(flag = false, s = 2, n = 300, w = -2, q = 18446744073709551615)' '' \
    '(flag = false, s = 2, n = 300, w = -2, q = 18446744073709551615, z = ())'
message many_defaults.bin Many '()' '' '(flag = true, s = -1, n = 7, w = 0, q = 0, z = ())'
message flat_segments.bin Flat '(a = 5)' --segment-size=1 '(a = 5)'
message many_segments.bin Many '(flag = false, s = -128, n = 65535, w = 2147483647, q = 1)' --segment-size=1 \
    '(flag = false, s = -128, n = 65535, w = 2147483647, q = 1, z = ())'
message two_messages.bin Flat '(a = 1) (a = 2)' '' '(a = 1)'
message mixed.bin Mixed '(a = 5, y = 9, b = "hi")' '' '(a = 5, y = 9, b = "hi")'
message mixed_segments.bin 'Mixed --indent' '(a = 5, x = void, b = "in another segment")' --segment-size=1 '(
  a = 5,
  x = (),
  b = "in another segment"
)'
message shapes.bin Shapes '(id = 1, circle = (r = 4294967295))' '' '(id = 1, circle = (r = 4294967295))'
message shapes_tag.bin Shapes '(id = 2, tag = (n = 3, u1 = 9, q = "z"))' '' '(id = 2, tag = (n = 3, u1 = 9, q = "z"))'
message shapes_word.bin Shapes '(id = 3, word = "a word")' --segment-size=1 '(id = 3, word = "a word")'
message loop.bin Loop '(again = (again = (again = (end = void))))' --segment-size=2 '(again = (again = (again = (end = ()))))'
message lists.bin Lists '(bytes = [1, 2, 255], raw = 0x"00 ff", t = "a\"b\\\n", items = [(a = 1), (a = 2)])' '' \
    '(bytes = [1, 2, 255], raw = 0x"00ff", t = "a\"b\\\n", items = [(a = 1), (a = 2)])'
message lists_segments.bin Lists '(bytes = [1, 2, 255], raw = 0x"00 ff", t = "text", items = [(a = 1), (a = 2)])' \
    --segment-size=3 '(bytes = [1, 2, 255], raw = 0x"00ff", t = "text", items = [(a = 1), (a = 2)])'
message lists_empty.bin Lists '(bytes = [], t = "", items = [])' '' '(bytes = [], t = "", items = [])'
message node.bin Node '(id = 18446744073709551615, displayName = "a name", size = inlineComposite)' '' \
    '(id = 18446744073709551615, displayName = "a name", size = inlineComposite)'

# long OPTIONS: a list of 5,000 structs is printed as the tool does: on one line to the byte, on lines but for spaces and
# line breaks
long() {
    if command -v capnp > "$scratch/which"; then
        # shellcheck disable=SC2086 # no option is no word
        capnp encode $1 examples/built_in.capnp Lists < "$scratch/long" > "$scratch/message"
        capnp decode --short examples/built_in.capnp Lists < "$scratch/message" > "$scratch/wanted"
        ./capnp_show Lists < "$scratch/message" > "$scratch/out" 2> "$scratch/err"
        checks=$((checks + 1))
        cmp -- "$scratch/out" "$scratch/wanted" || fail "long $1: printed otherwise than by capnp"
        capnp decode examples/built_in.capnp Lists < "$scratch/message" | tr -d ' \n' > "$scratch/wanted"
        ./capnp_show Lists --indent < "$scratch/message" 2> "$scratch/err" | tr -d ' \n' > "$scratch/out"
        checks=$((checks + 1))
        cmp -- "$scratch/out" "$scratch/wanted" || fail "long $1: printed on lines otherwise than by capnp"
        : > "$scratch/out"
    fi
}

{
    printf '(t = "5,000_structs", items = ['
    seq -s ', ' -f '(a = %.0f)' 1 5000
    printf '])\n'
} > "$scratch/long"
long ''
long --segment-size=1000

# made SCHEMA STRUCT FILE VALUES OPTIONS: `capnp encode OPTIONS` makes FILE from the values in another file
made() {
    if command -v capnp > "$scratch/which"; then
        checks=$((checks + 1))
        # shellcheck disable=SC2086 # no option is no word
        capnp encode $5 "examples/$1" "$2" < "$4" > "$scratch/made"
        cmp -- "$scratch/made" "examples/$3" || fail "$3: capnp makes other bytes"
    fi
}

echo '()' > "$scratch/nothing"
made kinds.capnp Kinds kinds.bin examples/kinds.txt ''
made kinds.capnp Kinds kinds_segments.bin examples/kinds.txt --segment-size=8
made kinds.capnp Kinds kinds_empty.bin "$scratch/nothing" ''
made station_before.capnp Station station_before.bin examples/station_before.txt ''
made station.capnp Station station.bin examples/station.txt ''
made station.capnp Station station_segments.bin examples/station.txt --segment-size=4
made set.capnp SetRecord station_set.bin examples/station_set.txt ''

# with_set FILE WORDS LINE: under the set in examples/station_set.bin, FILE is printed as LINE
with_set() {
    # shellcheck disable=SC2086 # the name of a struct, and after it perhaps --indent
    ./capnp_show --set examples/station_set.bin $2 < "examples/$1" > "$scratch/out" 2> "$scratch/err"
    expect "$1 under a set" $? 0 "$3" ""
}

station='(title = "west", height = 12, weather = snow, place = (east = -3, north = 4, up = 9), readings = [(tenths = 15, hour = 6), (tenths = -2, hour = 18)], neighbours = [(title = "mid", height = -5, weather = sun, robot = 77, code = 8), (title = "low", height = -5, weather = sun, closed = (), code = 7)], robot = 5, code = 9)'
with_set station.bin Station "$station"
with_set station_segments.bin Station "$station"
with_set flat.bin 'Reading --indent' '(
  tenths = 5,
  hour = 0
)'

# refused FILE NAME NUMBER: under the set in FILE, station.bin is refused
refused() {
    ./capnp_show --set "$1" "$2" < examples/station.bin > "$scratch/out" 2> "$scratch/err"
    expect "the set $1 and the name $2" $? 1 "" "refused: $3"
}

refused examples/station_set.bin Flat 64
refused examples/flat.bin Station 64
refused /dev/null Station 2
refused examples/no_such_file.bin Station 12

# reading FILE TEXT: `capnp encode` makes FILE from TEXT, and `capnp decode` gives it back alike
reading() {
    if command -v capnp > "$scratch/which"; then
        checks=$((checks + 1))
        echo "$2" | capnp encode examples/reading.capnp Reading > "$scratch/made"
        cmp -- "$scratch/made" "examples/$1" || fail "$1: capnp makes other bytes"
        echo "$2" | capnp encode --segment-size=2 examples/reading.capnp Reading |
            capnp decode examples/reading.capnp Reading > "$scratch/wanted"
        capnp decode examples/reading.capnp Reading < "examples/$1" > "$scratch/read"
        cmp -- "$scratch/read" "$scratch/wanted" || fail "$1: capnp reads another value"
    fi
}

# what crates/capnp_wire_tests/src/built_tests.rt builds, and what it copies out of several segments
reading built.bin '(id = 7, level = -2, points = [(x = 1), (x = -3)])'
reading copied.bin '(id = 7, name = "far away", scores = [4, 5], points = [(x = 6, y = 7)], next = (id = 8, name = "end"))'

usage='usage: capnp_show [--set FILE] NAME [--indent]'
for words in '' Nope many Shapes.circle --indent '--indent Many' 'Many --indent --indent' 'Flat Many' --set \
    '--set examples/flat.set' 'Flat --set examples/flat.set' '--set examples/flat.set Flat --indent --indent'; do
    # shellcheck disable=SC2086 # some are several words
    ./capnp_show $words < examples/many.bin > "$scratch/out" 2> "$scratch/err"
    expect "words '$words'" $? 2 "" "$usage"
done
./capnp_show "$(printf '\377')" < examples/many.bin > "$scratch/out" 2> "$scratch/err"
expect 'a word that is not UTF-8' $? 2 "" "$usage"

# sets that a file holds, by paths from the folder of the call
echo '(nodes = [(id = 100, dataWords = 1, displayName = "Flat", fields = [(name = "a", slot = (offset = 0, default = (kind = 7)))])], brands = [(node = 0, fieldTypes = [(base = 7)], childTypes = [[]])])' > "$scratch/text"
made set.capnp SetRecord flat.set "$scratch/text" ''
./capnp_show --set examples/flat.set Flat < examples/flat.bin > "$scratch/out" 2> "$scratch/err"
expect 'a set in a file' $? 0 '(a = 5)' ''
(cd examples && ../capnp_show --set ./flat.set Flat --indent < flat.bin) > "$scratch/out" 2> "$scratch/err"
expect 'a set in the folder of the call' $? 0 '(
  a = 5
)' ''
./capnp_show --set examples/meta.set SetRecord < examples/flat.set > "$scratch/out" 2> "$scratch/err"
expect 'a set under the meta set' $? 0 '(nodes = [(id = 100, dataWords = 1, pointers = 0, discriminantCount = 0, isGroup = false, discriminantOffset = 0, displayName = "Flat", fields = [(discriminantValue = 65535, name = "a", slot = (offset = 0, default = (uint16 = 0)))])], brands = [(node = 0, fieldTypes = [(base = 7, listCount = 0, number = 0)], childTypes = [[]])])' ''
./capnp_show --set examples Flat < examples/flat.bin > "$scratch/out" 2> "$scratch/err"
expect 'a directory as a set' $? 1 "" 'refused: 12'

./capnp_show Many < /dev/null > "$scratch/out" 2> "$scratch/err"
expect 'no bytes' $? 1 "" 'refused: 2'
head -c 31 examples/many.bin | ./capnp_show Many > "$scratch/out" 2> "$scratch/err"
expect 'one byte short' $? 1 "" 'refused: 2'
printf '\0\0\0\0\003\0\0\0\0\0\0\0\001\0\001\0\001\0\0\0\0\0\0\0\370\377\377\377\001\0\001\0' |
    ./capnp_show Loop > "$scratch/out" 2> "$scratch/err"
expect 'a struct that points to itself' $? 1 "" 'refused: 8'
./capnp_show Many < . > "$scratch/out" 2> "$scratch/err"
expect 'a directory as input' $? 1 "" 'refused: 12'
./capnp_show Many <&- > "$scratch/out" 2> "$scratch/err"
expect 'a closed input' $? 1 "" 'refused: 12'
./capnp_show Many < examples/many.bin >&- 2> "$scratch/err"
expect 'a closed output' $? 1 "" 'refused: 13'
./capnp_show Many < examples/many.bin > /dev/full 2> "$scratch/err"
expect 'a full output' $? 1 "" 'refused: 13'
./capnp_show Many < /dev/null > "$scratch/out" 2>&-
status=$?
: > "$scratch/err"
expect 'closed standard error' $status 1 "" ""

# ---- ./riftcalico ----

./capnp_set < examples/addressbook.request > "$scratch/addressbook.set" || exit 1
# builds the program where needed, so that the runs below write nothing else
./riftcalico get Flat a < examples/flat.bin > "$scratch/out" || exit 1

# got FILE LINE WORD..: what stands at a path of the message in FILE
got() {
    file=$1
    line=$2
    shift 2
    ./riftcalico get "$@" < "examples/$file" > "$scratch/out" 2> "$scratch/err"
    expect "get $*" $? 0 "$line" ''
}

got mixed.bin '"hi"' Mixed b
got mixed.bin '(a = 5, y = 9, b = "hi")' Mixed .
got lists_segments.bin 2 Lists items.1.a
got lists.bin '0x"00ff"' Lists '#1'
got shapes_tag.bin 9 Shapes tag.u1
got many_defaults.bin 7 Many n
got station.bin '"mid"' --set examples/station_set.bin Station neighbours.0.title
got station.bin '(
  tenths = -2,
  hour = 18
)' --set examples/station_set.bin Station readings.1 --indent
got addressbook.bin '"Bob"
2
456' --set "$scratch/addressbook.set" AddressBook people.1.name people.1.phones.# people.1.id
got addressbook.bin 'Bob
2' --set "$scratch/addressbook.set" AddressBook --raw people.1.name people.#
got addressbook.bin 'people.0.phones.#: 1
people.1.phones.#: 2
people.0.employment.school: "MIT"' --set "$scratch/addressbook.set" AddressBook --paths 'people.*.phones.#' 'people.*.employment.school'
./riftcalico json --set "$scratch/addressbook.set" AddressBook people.1.phones.0 < examples/addressbook.bin > "$scratch/out" 2> "$scratch/err"
expect 'json of a path' $? 0 '{"number":"555-4567","type":"home"}' ''

# patched SCHEMA NAME FILE TEXT TOLD WORD..: what these calls leave of the message in FILE, as `capnp decode` reads it
patched() {
    schema=$1
    name=$2
    file=$3
    text=$4
    told=$5
    shift 5
    ./riftcalico patch "$@" < "examples/$file" > "$scratch/message" 2> "$scratch/err"
    status=$?
    expect "patch $*" $status 0 '' "$told"
    if command -v capnp > "$scratch/which"; then
        capnp decode --short "examples/$schema" "$name" < "$scratch/message" > "$scratch/out"
        expect "patch $*, decoded" $? 0 "$text" "$told"
    fi
}

patched built_in.capnp Mixed mixed_segments.bin '(a = 6, y = 255, b = "a \"word\"")' '3: get y = 255' \
    Mixed 'set a 6' 'set y 255' 'get y' 'set b a "word"'
patched built_in.capnp Lists lists.bin '(bytes = [1, 2, 255], raw = "A", t = "x", items = [(a = 1), (a = 7)])' '4: get items.1.a = 7' \
    Lists 'set raw 0x"41"' 'set t x' 'set items.1.a 7' 'get items.1.a'
patched built_in.capnp Shapes shapes.bin '(id = 1, word = "w")' '1: which . = #1
3: which . = #3' \
    Shapes 'which .' 'set word w' 'which .'
patched sets/addressbook.capnp AddressBook addressbook.bin \
    '(people = [(id = 123, name = "Alice", email = "alice@example.com", phones = [(number = "555-1212", type = mobile)], employment = (school = "MIT")), (id = 456, name = "Bob", email = "bob@example.org", phones = [(number = "555-4567", type = home), (number = "555-7654", type = work)], employment = (employer = "us"))])' \
    '3: get people.1.name = "Bob"' --set "$scratch/addressbook.set" AddressBook 'set people.1.email bob@example.org' \
    'set people.1.employment.employer us' 'get people.1.name'

# made_new FILE WORD..: these calls on an empty root make the message in FILE, which the public tool made
made_new() {
    file=$1
    shift
    ./riftcalico new "$@" > "$scratch/made" 2> "$scratch/err"
    expect "new $*" $? 0 '' ''
    cmp -- "$scratch/made" "examples/$file" || fail "new $*: capnp makes other bytes than these calls"
}

made_new flat.bin Flat 'set a 5'
made_new mixed.bin Mixed 'set b hi' 'set y 9' 'set a 5'
made_new node.bin Node 'set size inlineComposite' 'set displayName a name' 'set id 18446744073709551615'
made_new addressbook.bin --set "$scratch/addressbook.set" --calls examples/addressbook.calls AddressBook

# listed TEXT WORD..: the structs of a set, or the fields of one
listed() {
    text=$1
    shift
    ./riftcalico structs "$@" > "$scratch/out" 2> "$scratch/err"
    expect "structs $*" $? 0 "$text" ''
}

listed 'Flat
Mixed
Many
Shapes
Loop
Lists
Node'
listed 'union: 2 members, tag at data bit 16
a: UInt16, data bit 0, default 0
x: Void, member 0
y: UInt8, data bit 32, default 0, member 1
b: Text, pointer 0, default ""' Mixed

# a refused call: nothing is written, unless the run is to go on
./riftcalico patch Mixed 'set a 6' 'set c 1' < examples/mixed.bin > "$scratch/out" 2> "$scratch/err"
expect 'a refused call' $? 1 '' '2: set c 1: refused: 20 FieldNotFound in Mixed'
./riftcalico patch --keep-going Mixed 'set a 6' 'set c 1' < examples/mixed.bin > "$scratch/message" 2> "$scratch/err"
expect 'a refused call that is passed over' $? 1 '' '2: set c 1: refused: 20 FieldNotFound in Mixed'
./capnp_show Mixed < "$scratch/message" > "$scratch/out" 2> "$scratch/err"
expect 'what it leaves' $? 0 '(a = 6, y = 9, b = "hi")' ''

# a file is replaced where nothing is refused, and else stays; no new file is left
cp -- examples/mixed.bin "$scratch/place"
./riftcalico patch --in-place "$scratch/place" Mixed 'set a 6' < /dev/null > "$scratch/out" 2> "$scratch/err"
expect 'a patch in place' $? 0 '' ''
./capnp_show Mixed < "$scratch/place" > "$scratch/out" 2> "$scratch/err"
expect 'what takes the place' $? 0 '(a = 6, y = 9, b = "hi")' ''
cp -- examples/mixed.bin "$scratch/place"
./riftcalico patch --in-place "$scratch/place" Mixed 'set a 6' 'set c 1' < /dev/null > "$scratch/out" 2> "$scratch/err"
expect 'a refused patch in place' $? 1 '' '2: set c 1: refused: 20 FieldNotFound in Mixed'
cmp -- "$scratch/place" examples/mixed.bin || fail 'a refused patch in place: the file has other bytes'
[ ! -e "$scratch/place.riftcalico-new" ] || fail 'a patch in place: the new file is left'

# words that can't be read, and other words
./riftcalico patch Mixed 'set a 65536' < examples/mixed.bin > "$scratch/out" 2> "$scratch/err"
expect 'a number past its type' $? 2 '' "1: set a 65536: can't be read at 10; wanted: 0 to 65535"
./riftcalico get Mixed a..b < examples/mixed.bin > "$scratch/out" 2> "$scratch/err"
expect 'a path with an empty name' $? 2 '' "1: a..b: can't be read at 2"
./riftcalico show Mixed a < examples/mixed.bin > "$scratch/out" 2> "$scratch/err"
expect 'another form' $? 2 '' 'usage: riftcalico show [--set FILE] [--packed] [--limit BYTES] [--each [--keep-going]] NAME [--indent]'
./riftcalico shows Mixed < examples/mixed.bin > "$scratch/out" 2> "$scratch/err"
expect 'another verb' $? 2 '' 'unknown verb: shows
usage: riftcalico show [--set FILE] [--packed] [--limit BYTES] [--each [--keep-going]] NAME [--indent]
       riftcalico get [--set FILE] [--packed] [--limit BYTES] [--raw] [--paths] [--json] [--each [--keep-going]] NAME PATH.. [--indent]
       riftcalico json [--set FILE] [--packed] [--limit BYTES] [--each [--keep-going]] NAME [PATH..] [--indent]
       riftcalico from-json [--set FILE] [--strict] [--packed] [--limit BYTES] [--each [--keep-going]] NAME
       riftcalico check [--set FILE] [--packed] [--limit PARTS] [--all] [--each [--keep-going]] NAME [PATH]
       riftcalico patch [--set FILE] [--calls FILE] [--keep-going] [--packed] [--limit BYTES] [--each] [--in-place FILE] NAME CALL..
       riftcalico new [--set FILE] [--calls FILE] [--keep-going] [--packed] [--limit BYTES] NAME CALL..
       riftcalico structs [--set FILE] [--limit BYTES] [NAME]
       riftcalico schemas [--strict] [--limit BYTES]
       riftcalico compatible [--quiet] [--breaking-only] [--both] [--limit BYTES] OLD NEW [NAME]
       riftcalico diff [--set FILE] [--packed] [--limit BYTES] NAME OLD NEW'
./riftcalico get Flat a < /dev/null > "$scratch/out" 2> "$scratch/err"
expect 'a path of no bytes' $? 1 '' 'refused: 2 Truncated (standard input)'
./riftcalico get Shapes circle.r < examples/shapes_tag.bin > "$scratch/out" 2> "$scratch/err"
expect "a member that isn't active" $? 1 '' 'refused: 30 InactiveMember (standard input) at circle'
./riftcalico get Shape . < examples/shapes_tag.bin > "$scratch/out" 2> "$scratch/err"
expect 'no struct of the name' $? 1 '' 'refused: 64 NameNotFound (Shape); near: Shapes; see riftcalico structs'
./riftcalico new Flat 'set a 5' > /dev/full 2> "$scratch/err"
expect 'a full output' $? 1 '' 'refused: 13 WriteFailed (standard output)'

# a message that is only looked at
./riftcalico check --set "$scratch/addressbook.set" AddressBook < examples/addressbook.bin > "$scratch/out" 2> "$scratch/err"
expect 'check' $? 0 '' ''
./riftcalico check Shapes circle < examples/shapes_tag.bin > "$scratch/out" 2> "$scratch/err"
expect 'check, of a member that is not active' $? 1 '' 'refused: 30 InactiveMember (standard input) at circle'

# verbs that do what the other programs do
./riftcalico show --indent Mixed < examples/mixed_segments.bin > "$scratch/out" 2> "$scratch/err"
expect 'show' $? 0 "$(./capnp_show Mixed --indent < examples/mixed_segments.bin)" ''
./riftcalico schemas < examples/addressbook.request > "$scratch/made" 2> "$scratch/err"
expect 'schemas' $? 0 '' ''
cmp -- "$scratch/made" "$scratch/addressbook.set" || fail 'schemas: other bytes than those of capnp_set'

[ "$failures" -eq 0 ] || exit 1
echo "$checks cases: all as expected"
