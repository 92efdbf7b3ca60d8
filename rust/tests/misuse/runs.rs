//! Misuse of runs: calls, edits and copies with values of other sets, on roots of other schemas.

use super::builders::size;
use super::came::Came;
use super::readers::any_type;
use super::world::{index, is_foreign, Root, World};
use crate::common::random::Random;
use riftcalico::dynamic_value::Reader as Value;
use riftcalico::edits::{
    append_all, change_list, copy_part, edit_bytes, edit_list, list_all, new_elements, run_acts, Act, Change, Edit,
    ListEdit, PathCopy,
};
use riftcalico::introspect::TypeVariant;
use riftcalico::memory::Global;
use riftcalico::message::{self, read_root};
use riftcalico::patch::{get_line, patch_bytes, read_path};
use riftcalico::run::{run, Call, Op, Reply, Step};
use riftcalico::schema::{Field, StructSchema};
use riftcalico::{dynamic_struct, json, query, value_texts, ErrorKind};

/// Makes one call on a message, by a seed.
pub fn call<'w>(world: &'w World<'w>, random: &mut Random, message: &'w mut message::Builder, root: Root<'w>) -> Came {
    let schema = root.schema;
    let steps = steps(random, schema);
    let value = [value(world, random, schema, steps[0])];
    let acts = [act(random, &steps, &value)];
    let kind = random.below(5);
    if kind == 0 {
        let other = *random.one_of(&world.schemas);
        let left = run_acts(Global, message, other, &acts);
        // under another schema the root's own bits are other fields
        return match Came::of(left) {
            Came::Done => Came::Loose,
            came => came,
        };
    }
    let built = dynamic_struct::Builder::open(message.root(), schema).expect("a struct stands there");
    let reply = match (kind, acts[0]) {
        (1, Act::Edit(edit)) => edit_list(Global, built, &edit),
        (1, Act::Copy(copy)) => copy_part(Global, built, copy.path, copy.from),
        (_, Act::Call(call)) => first(run(Global, built, &[call]).expect("there is memory").into()),
        _ => return on_bytes(root, &acts),
    };
    let came = Came::of_reply(&reply);
    refuses_foreign(schema, acts[0], came);
    match (acts[0], came) {
        // a slot takes a copy of a struct or list whatever its type
        (Act::Copy(_), Came::Done) => Came::Loose,
        _ => came,
    }
}

fn first(replies: Vec<Reply>) -> Reply {
    replies.into_iter().next().expect("each call has a reply")
}

/// Two steps at a root, of which each may be of no field.
fn steps<'w>(random: &mut Random, schema: StructSchema<'w>) -> [Step<'w>; 2] {
    let fields = schema.get_fields().expect("it is always answered");
    [0; 2].map(|_| {
        let at = index(random, fields.len().into());
        match fields.iter().nth(at as usize) {
            Some(field) if random.below(3) > 0 => Step::Named(field.get_proto().name.as_str()),
            _ => *random.one_of(&[Step::Field(at as u16), Step::Element(at), Step::Named("nobody")]),
        }
    })
}

/// The field that a step names.
fn field_at<'w>(schema: StructSchema<'w>, step: Step<'_>) -> Option<Field<'w>> {
    let fields = schema.get_fields().expect("it is always answered");
    match step {
        Step::Field(index) => fields.iter().nth(index.into()),
        Step::Named(name) => schema.find_field_by_name(name).expect("it is always answered"),
        Step::Element(_) => None,
    }
}

/// A value for the field that a step names: of its type, or of another set.
fn value<'w>(world: &World<'w>, random: &mut Random, schema: StructSchema<'w>, step: Step<'_>) -> Value<'w> {
    match field_at(schema, step) {
        Some(field) => world.value_for(field, random),
        None => world.value(random),
    }
}

fn act<'c>(random: &mut Random, steps: &'c [Step<'c>; 2], value: &'c [Value<'c>; 1]) -> Act<'c> {
    let op = match random.below(8) {
        0 => Op::Get,
        1 => Op::Has,
        2 => Op::Which,
        3 => Op::Init,
        4 => Op::Initn(size(random)),
        5 => Op::Clear,
        _ => Op::Set(value[0]),
    };
    let change = match random.below(5) {
        0 => Change::Remove(index(random, 3)),
        1 => Change::Resize(index(random, 3).min(40)),
        2 => Change::Insert(index(random, 3), value[0]),
        _ => Change::Append(value),
    };
    match random.below(3) {
        0 => Act::Edit(ListEdit {
            path: &steps[..1],
            change,
        }),
        1 => Act::Copy(PathCopy {
            path: &steps[..1],
            from: &steps[1..],
        }),
        _ => Act::Call(Call {
            path: &[],
            last: steps[0],
            op,
        }),
    }
}

/// Makes an act on the bytes of a message, and looks at the bytes that are left.
fn on_bytes(root: Root<'_>, acts: &[Act<'_>]) -> Came {
    let whole = patch_bytes(root.bytes, root.schema, &[])
        .expect("the message is sound")
        .1;
    let (replies, left) = match acts[0] {
        Act::Call(call) => patch_bytes(root.bytes, root.schema, &[call]),
        _ => edit_bytes(root.bytes, root.schema, acts),
    }
    .expect("there is memory");
    let came = Came::of_reply(&first(replies));
    if matches!(came, Came::Refused(kind) if kind != ErrorKind::CannotSetAnyPointerFieldToAPrimitiveValue) {
        assert_eq!(left, whole, "a refused call has changed bytes");
    }
    refuses_foreign(root.schema, acts[0], came);
    came
}

/// A set to a value of another set is refused, but of a field without a type.
fn refuses_foreign(schema: StructSchema<'_>, act: Act<'_>, came: Came) {
    let (step, value) = match act {
        Act::Call(Call {
            last,
            op: Op::Set(value),
            ..
        }) => (last, value),
        Act::Edit(ListEdit {
            path,
            change: Change::Append([value]),
        }) => (path[0], *value),
        Act::Edit(ListEdit {
            path,
            change: Change::Insert(_, value),
        }) => (path[0], value),
        _ => return,
    };
    let field = field_at(schema, step);
    let is_untyped = field.is_some_and(|field| matches!(field.get_type().which(), TypeVariant::AnyPointer));
    if is_foreign(schema.get_set(), value) && !is_untyped {
        assert!(matches!(came, Came::Refused(_)), "a value of another set: {came:?}");
    }
}

/// Makes lists of values that may be of other sets, and of types that may be of none.
pub fn lists(world: &World<'_>, random: &mut Random) -> Came {
    let set = *random.one_of(&world.sets);
    let of = any_type(world, random);
    let value = world.value(random);
    let list = random.one_of(&world.lists).get_elements();
    let is_foreign = is_foreign(set, value);
    let came = match random.below(5) {
        0 => Came::of(list_all(Global, set, of, &[value])),
        1 => Came::of(append_all(Global, set, &list, of, &[value, value])),
        2 => Came::of(change_list(Global, set, &list, of, Edit::Append(value))),
        3 => Came::of(change_list(
            Global,
            set,
            &list,
            of,
            Edit::Insert(index(random, list.len()), value),
        )),
        _ => return Came::of(new_elements(Global, set, of, index(random, 9).min(1 << 20))),
    };
    assert!(
        !is_foreign || matches!(came, Came::Refused(_)),
        "a value of another set: {came:?}"
    );
    came
}

/// Reads a message, or a text, under a schema that is not its own, along paths that may lead nowhere.
pub fn read(world: &World<'_>, random: &mut Random) -> Came {
    let bytes = random.one_of(&world.roots).bytes;
    let schema = *random.one_of(&world.schemas);
    let steps = steps(random, schema);
    let path = &steps[..random.below(3)];
    let field = *random.one_of(&world.fields);
    let text = random
        .one_of(&["{}", "[1]", "(a = 1)", "\"x\"", "5", "{\"id\": 1}"])
        .as_bytes();
    match random.below(12) {
        0 => Came::of(get_line(Global, schema, path, bytes, false)),
        1 => Came::of(query::get_shown(Global, schema, path, bytes, false, false, 4_096)),
        2 => Came::if_there(query::get_json(Global, schema, path, bytes, false, 4_096).is_ok()),
        3 => Came::if_there(query::get_length(Global, schema, path, bytes).is_ok()),
        4 => Came::if_there(query::list_paths(Global, schema, path, bytes, 64).is_ok()),
        5 => Came::if_there(query::reach_path(Global, schema, path, bytes).is_ok()),
        6 => Came::if_there(query::has_floats_at(schema, path) || query::get_form_at(schema, path).floats),
        7 => Came::of(read_root(bytes, schema).and_then(|root| read_path(root.into(), path).map(drop))),
        8 => Came::if_there(json::from_json(Global, schema, text, false).is_ok()),
        9 => Came::if_there(value_texts::read_root(Global, 4_096, schema, text).is_ok()),
        10 => Came::if_there(value_texts::read_field(Global, 4_096, field, text).is_ok()),
        _ => {
            let depth = random.below(4);
            Came::if_there(value_texts::read_element(Global, 4_096, field, depth, text).is_ok())
        }
    }
}
