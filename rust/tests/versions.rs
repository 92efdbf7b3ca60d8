//! Random schemas, each changed by one to five edits: what is told of the two, beside the definition of a compatible successor
//! as it is written out here. Of structs that follow, messages of each version are read under the other.
#![forbid(unsafe_code)]

#[path = "versions/messages.rs"]
mod messages;
#[path = "versions/model.rs"]
mod model;
#[path = "versions/projection.rs"]
mod projection;
#[path = "common/threads.rs"]
mod threads;

use messages::random_message;
use model::random::Random;
use model::{same_default, Field, Schema, Struct, Type};
use projection::same_struct;
use riftcalico::compatible::{
    compare_all, compare_all_owned, explain_all, join, join_owned, Cause, Change, Compatible, FullComparison, Pair,
};
use riftcalico::memory::Global;
use riftcalico::message::read_root;
use riftcalico::schema::{SchemaSet, StructSchema};
use std::collections::BTreeSet;
use threads::on_all_processors;

/// How many pairs are tried.
const PAIRS: u64 = if cfg!(debug_assertions) { 1_000 } else { 10_000 };

/// How many messages of each version are read under the other, of each struct that follows.
const MESSAGES: u64 = 100;

/// An older schema and a newer one.
struct Versions {
    older: Schema,
    newer: Schema,
}

/// What differs, by the pair of structs, the field and the cause's number; and what is noted.
type Told = BTreeSet<(usize, usize, Option<usize>, String)>;

impl Versions {
    fn of(&self, pair: (usize, usize)) -> (&Struct, &Struct) {
        (&self.older.structs[pair.0], &self.newer.structs[pair.1])
    }

    /// The type that stands where an element of a type stood, and whether that is field 0 of a struct.
    fn in_place(&self, was: &Type, now: &Type) -> (Type, bool) {
        let can_become = matches!(was, Type::Number(..) | Type::Text | Type::Data | Type::List(_));
        if let (true, Type::Struct(number)) = (can_become, now) {
            if let Some(first) = self.newer.structs[*number].fields.first() {
                let is_empty = first.default == 0 || matches!(first.of, Type::List(_) | Type::AnyPointer);
                let may_stand = matches!(first.of, Type::Number(..) | Type::Text | Type::Data | Type::List(_) | Type::AnyPointer);
                if first.member.is_none() && first.offset == Some(0) && is_empty && may_stand {
                    return (first.of.clone(), true);
                }
            }
        }
        (now.clone(), false)
    }

    /// What two types hold inside the lists that both are, in how many of these elements became structs, and how many they are.
    fn inside(&self, was: &Type, now: &Type) -> (Type, Type, usize, usize) {
        match (was, now) {
            (Type::List(one), Type::List(other)) => {
                let (other, became) = self.in_place(one, other);
                let (was, now, levels, lists) = self.inside(one, &other);
                (was, now, levels + usize::from(became), lists + 1)
            }
            _ => (was.clone(), now.clone(), 0, 0),
        }
    }

    /// Whether two types are related, where the structs of these pairs are.
    fn are_related(&self, was: &Type, now: &Type, pairs: &BTreeSet<(usize, usize)>) -> bool {
        match self.inside(was, now) {
            (Type::Struct(a), Type::Struct(b), ..) => pairs.contains(&(a, b)),
            (Type::Enum(d), Type::Enum(e), ..) => self.older.enums[d].len() <= self.newer.enums[e].len(),
            (was, now, ..) => was == now,
        }
    }

    /// Whether the newer struct of a pair has what the older one has.
    fn is_shared(&self, pair: (usize, usize), pairs: &BTreeSet<(usize, usize)>) -> bool {
        let (older, newer) = self.of(pair);
        let fields = older.fields.iter().zip(&newer.fields).all(|(was, now)| {
            let slots = was.offset == now.offset && (was.offset.is_none() || same_default(was, now));
            slots && was.member == now.member && self.are_related(&was.of, &now.of, pairs)
        });
        let union = older.members() == 0 || (older.union_word == newer.union_word && older.members() <= newer.members());
        older.fields.len() <= newer.fields.len() && fields && union
    }

    /// The largest set of pairs in which each leads to pairs of the set: those of compatible successors.
    fn successors(&self) -> BTreeSet<(usize, usize)> {
        let (a, b) = (self.older.structs.len(), self.newer.structs.len());
        let mut pairs: BTreeSet<(usize, usize)> = (0..a).flat_map(|x| (0..b).map(move |y| (x, y))).collect();
        loop {
            let kept: BTreeSet<_> = pairs.iter().copied().filter(|pair| self.is_shared(*pair, &pairs)).collect();
            if kept.len() == pairs.len() {
                return kept;
            }
            pairs = kept;
        }
    }

    /// The pairs that are compared.
    fn compared(&self, asked: &[(usize, usize)]) -> BTreeSet<(usize, usize)> {
        let mut found: BTreeSet<(usize, usize)> = BTreeSet::new();
        let mut left = asked.to_vec();
        while let Some(pair) = left.pop() {
            if found.insert(pair) {
                let (older, newer) = self.of(pair);
                for (was, now) in older.fields.iter().zip(&newer.fields) {
                    if let (Type::Struct(a), Type::Struct(b), ..) = self.inside(&was.of, &now.of) {
                        left.push((a, b));
                    }
                }
            }
        }
        found
    }

    fn type_cause(&self, was: &Type, now: &Type) -> Option<Cause> {
        match self.inside(was, now) {
            (Type::Struct(_), Type::Struct(_), ..) => None,
            (_, Type::Struct(_), _, lists) if lists > 0 => Some(Cause::ElementsBecameStructs),
            (Type::Enum(d), Type::Enum(e), ..) if self.older.enums[d].len() <= self.newer.enums[e].len() => None,
            (Type::Enum(_), Type::Enum(_), ..) => Some(Cause::FewerEnumerants),
            (was, now, ..) => (was != now).then_some(Cause::TypeChanged),
        }
    }

    fn field_causes(&self, was: &Field, now: &Field) -> Vec<Cause> {
        let mut causes = Vec::new();
        match (was.offset, now.offset) {
            (Some(one), Some(other)) if one != other => causes.push(Cause::PlaceChanged),
            (Some(_), None) | (None, Some(_)) => causes.push(Cause::KindChanged),
            _ => {}
        }
        let types = self.type_cause(&was.of, &now.of);
        let slots = was.offset.is_some() && now.offset.is_some();
        if slots && types != Some(Cause::TypeChanged) && !same_default(was, now) {
            causes.push(Cause::DefaultChanged);
        }
        match (was.member, now.member) {
            (Some(one), Some(other)) if one != other => causes.push(Cause::DiscriminantChanged),
            (Some(_), None) => causes.push(Cause::LeftUnion),
            (None, Some(_)) => causes.push(Cause::EnteredUnion),
            _ => {}
        }
        causes.extend(types);
        causes
    }

    /// All that differs in the compared pairs.
    fn differences(&self, compared: &BTreeSet<(usize, usize)>) -> Told {
        let mut told = Told::new();
        for &(a, b) in compared {
            let (older, newer) = self.of((a, b));
            let mut tell = |field, cause: Cause| assert!(told.insert((a, b, field, format!("{cause:?}"))));
            match (older.members(), newer.members()) {
                (was, 0) if was > 0 => tell(None, Cause::UnionGone),
                (was, now) if was > now => tell(None, Cause::FewerMembers),
                _ => {}
            }
            if older.members() > 0 && newer.members() > 0 && older.union_word != newer.union_word {
                tell(None, Cause::UnionMoved);
            }
            for (index, was) in older.fields.iter().enumerate() {
                match newer.fields.get(index) {
                    None => tell(Some(index), Cause::FieldGone),
                    Some(now) => self.field_causes(was, now).into_iter().for_each(|cause| tell(Some(index), cause)),
                }
            }
        }
        told
    }

    /// All that is noted of the compared pairs, with the enumerants' ordinals and the levels.
    fn notes(&self, compared: &BTreeSet<(usize, usize)>) -> Told {
        let mut told = Told::new();
        for &(a, b) in compared {
            let (older, newer) = self.of((a, b));
            for (index, now) in newer.fields.iter().enumerate() {
                let mut note = |words: String| assert!(told.insert((a, b, Some(index), words)));
                let Some(was) = older.fields.get(index) else {
                    note("came".to_string());
                    continue;
                };
                if was.name != now.name {
                    note("renamed".to_string());
                }
                let (one, other, levels, _) = self.inside(&was.of, &now.of);
                if levels > 0 && self.type_cause(&was.of, &now.of).is_none() {
                    note(format!("levels {levels}"));
                }
                if let (Type::Enum(d), Type::Enum(e)) = (one, other) {
                    for (ordinal, name) in self.newer.enums[e].iter().enumerate() {
                        match self.older.enums[d].get(ordinal) {
                            None => note(format!("{d} {e} came {ordinal}")),
                            Some(was) if was != name => note(format!("{d} {e} renamed {ordinal}")),
                            Some(_) => {}
                        }
                    }
                }
            }
        }
        told
    }

    /// Each struct of the older schema, no group, with that of its name, of both the first.
    fn shared(&self) -> Vec<(usize, usize)> {
        let find = |structs: &[Struct], name: &str| structs.iter().position(|one| !one.is_group && one.name == name);
        let older = self.older.structs.iter().enumerate().filter(|(number, one)| find(&self.older.structs, &one.name) == Some(*number));
        older.filter_map(|(number, one)| Some((number, find(&self.newer.structs, &one.name)?))).collect()
    }
}

/// Random messages of both versions of a struct read under the other as their fields have it that both know.
fn read_both(versions: &Versions, pair: (usize, usize), schemas: [StructSchema<'_>; 2], compatible: &Compatible<'_>, seed: u64) {
    for number in 0..MESSAGES {
        let mut random = Random::new(seed + 1, number);
        let newer = random_message(&versions.newer, pair.1, &mut random);
        let newer = read_root(&newer, schemas[1]).expect("the root is a struct");
        same_struct(compatible.narrow(newer), newer);
        let older = random_message(&versions.older, pair.0, &mut random);
        let older = read_root(&older, schemas[0]).expect("the root is a struct");
        same_struct(older, compatible.widen(older));
    }
}

/// Each field of each struct is found by its name.
fn look_up_names(schemas: &SchemaSet, seed: u64) {
    for number in 0..schemas.brands().len() as u32 {
        let schema = schemas.struct_schema(number);
        for (index, field) in schema.get_proto().body.fields.iter().enumerate() {
            let found = schema.get_field_by_name(&field.name).expect("the field is there");
            assert_eq!(usize::from(found.get_index()), index, "seed {seed}");
        }
    }
}

/// Sets whose entries move are joined and compared as others are.
fn try_owned(versions: &Versions, joined: &SchemaSet, whole: &FullComparison, seed: u64) {
    let owned = join_owned(Global, versions.older.set(), versions.newer.set()).expect("the sets are joined");
    assert_eq!(owned.nodes(), joined.nodes(), "seed {seed}");
    assert_eq!(owned.brands(), joined.brands(), "seed {seed}");
    assert_eq!(owned.enums(), joined.enums(), "seed {seed}");
    look_up_names(joined, seed);
    look_up_names(&owned, seed);
    let told = compare_all_owned(Global, versions.older.set(), versions.newer.set()).expect("the sets are compared");
    assert_eq!(told.text, whole.text, "seed {seed}");
    assert_eq!(told.notes, whole.notes, "seed {seed}");
    assert_eq!((told.compatible, told.incompatible), (whole.compatible, whole.incompatible), "seed {seed}");
}

/// What is told of the pairs that are asked, in the joined set, beside the definition.
fn try_pairs(versions: &Versions, seed: u64) -> bool {
    let (older, newer) = (versions.older.set(), versions.newer.set());
    let joined = join(Global, &older, &newer).expect("the sets are joined");
    let moved = versions.older.structs.len();
    let enums = versions.older.enums.len();
    let successors = versions.successors();
    let asked = versions.shared();
    let pairs: Vec<Pair> = asked.iter().map(|(a, b)| Pair { older: *a as u32, newer: (b + moved) as u32 }).collect();
    let explained = explain_all(Global, &joined, &pairs).expect("the pairs are explained");

    let compared = versions.compared(&asked);
    let place = |pair: Pair| (pair.older as usize, pair.newer as usize - moved);
    let told: Vec<_> = explained
        .told
        .iter()
        .map(|one| (place(one.pair).0, place(one.pair).1, one.field.map(usize::from), format!("{:?}", one.cause)))
        .collect();
    assert_eq!(told.iter().cloned().collect::<Told>(), versions.differences(&compared), "seed {seed}");
    assert_eq!(told.len(), told.iter().collect::<BTreeSet<_>>().len(), "seed {seed}");
    let noted = explained.notes.iter().map(|note| {
        let words = match note.change {
            Change::FieldCame => "came".to_string(),
            Change::FieldRenamed => "renamed".to_string(),
            Change::EnumerantCame(pair, k) => format!("{} {} came {k}", pair.older, pair.newer as usize - enums),
            Change::EnumerantRenamed(pair, k) => format!("{} {} renamed {k}", pair.older, pair.newer as usize - enums),
            Change::ListsOfStructs(levels) => format!("levels {levels}"),
        };
        (place(note.pair).0, place(note.pair).1, Some(note.field.into()), words)
    });
    let noted: Vec<_> = noted.collect();
    assert_eq!(noted.iter().cloned().collect::<Told>(), versions.notes(&compared), "seed {seed}");
    assert_eq!(noted.len(), noted.iter().collect::<BTreeSet<_>>().len(), "seed {seed}");

    let follows: Vec<bool> = asked.iter().map(|pair| successors.contains(pair)).collect();
    assert_eq!(explained.follows.to_vec(), follows, "seed {seed}");
    for (pair, follows) in pairs.iter().zip(&follows) {
        let schemas = [joined.struct_schema(pair.older), joined.struct_schema(pair.newer)];
        let found = Compatible::check(Global, schemas[0], schemas[1]);
        let found = found.expect("there is memory");
        assert_eq!(found.is_some(), *follows, "seed {seed}");
        if let Some(compatible) = found {
            read_both(versions, place(*pair), schemas, &compatible, seed);
        }
    }
    let whole = compare_all(Global, &older, &newer).expect("the sets are compared");
    assert_eq!(whole.compatible, follows.iter().filter(|follows| **follows).count(), "seed {seed}");
    assert_eq!(whole.incompatible, follows.iter().filter(|follows| !**follows).count(), "seed {seed}");
    assert_eq!(whole.text.matches('\n').count(), told.len(), "seed {seed}");
    try_owned(versions, &joined, &whole, seed);
    follows.iter().all(|follows| *follows)
}

#[test]
fn random_versions_are_compared_as_the_definition_says() {
    let compatible = on_all_processors(PAIRS, |seed| {
        let mut random = Random::new(71, seed);
        let older = Schema::random(&mut random);
        let mut newer = older.clone();
        for _ in 0..1 + random.below(5) {
            newer.edit(&mut random);
        }
        try_pairs(&Versions { older, newer }, seed)
    });
    let compatible = compatible.iter().filter(|all| **all).count() as u64;
    // Both answers come often enough to be tried.
    assert!(compatible > PAIRS / 10 && compatible < PAIRS - PAIRS / 10, "{compatible} of {PAIRS}");
}
