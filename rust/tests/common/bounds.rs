//! How much there is to read in a message: a damaged one may say more than it has, since pointers can share a target,
//! and since elements of size zero take no room.

use riftcalico::memory::Global;
use riftcalico::message::{ElementSize, ListReader, PointerReader, Reader, StructReader};

/// Whether the root of a message, if it has one, is walked whole in so many steps: a pointer, a word and an element are
/// one each, as often as they are met.
pub fn is_within(bytes: &[u8], steps: usize) -> bool {
    let mut left = steps;
    Reader::new(Global, bytes).is_err() || walk(root(bytes), &mut left)
}

/// The root pointer of a message, and a null where the bytes are none.
pub fn root(bytes: &[u8]) -> PointerReader<'_> {
    match Reader::new(Global, bytes) {
        Ok(message) => message.get_root(),
        Err(_) => PointerReader::from_words(&[0; 8]),
    }
}

/// Takes steps, where so many are left.
fn take(left: &mut usize, steps: usize) -> bool {
    let rest = left.checked_sub(steps);
    *left = rest.unwrap_or(0);
    rest.is_some()
}

fn walk(pointer: PointerReader<'_>, left: &mut usize) -> bool {
    if let Ok(found) = pointer.get_struct() {
        return walk_struct(found, left);
    }
    match pointer.get_list(ElementSize::Void) {
        Ok(list) => walk_list(list, left),
        Err(_) => take(left, 1),
    }
}

fn walk_struct(found: StructReader<'_>, left: &mut usize) -> bool {
    let count = found.get_pointer_count();
    let words = found.get_data_section().len() / 8;
    take(left, 1 + words) && (0..count).all(|index| walk(found.get_pointer_field(index), left))
}

fn walk_list(list: ListReader<'_>, left: &mut usize) -> bool {
    let count = list.len();
    if !take(left, 1 + count as usize) {
        return false;
    }
    match list.get_element_size() {
        ElementSize::Pointer => (0..count).all(|index| walk(list.get_pointer_element(index), left)),
        ElementSize::InlineComposite => (0..count).all(|index| {
            list.get_struct_element(index)
                .map_or(true, |found| walk_struct(found, left))
        }),
        _ => true,
    }
}
