//! The numbers of a list: written one by one, and read in one loop.

use riftcalico::memory::Global;
use riftcalico::message::{self, ElementSize, PointerReader};
use std::error::Error;

/// The bytes of a message whose root is a list of these numbers.
fn build(numbers: &[u32]) -> Result<Vec<u8>, Box<dyn Error>> {
    let mut message = message::Builder::new(Global)?;
    let mut list = message.root().init_list(ElementSize::FourBytes, numbers.len() as u32)?;
    for (index, number) in (0..).zip(numbers) {
        list.set_data_element(index, *number);
    }
    Ok(message.write_message()?.into())
}

/// The sum of a list of numbers.
fn sum(pointer: PointerReader<'_>) -> Result<u64, Box<dyn Error>> {
    let list = pointer.get_list(ElementSize::FourBytes)?;
    let mut total = 0u64;
    for number in list.numbers::<u32>() {
        total += number as u64;
    }
    Ok(total)
}

/// What is printed: the sum of the numbers in the message that is built.
pub fn lines() -> Result<String, Box<dyn Error>> {
    let bytes = build(&[1, 2, 4_000_000_000])?;
    let reader = message::Reader::new(Global, &bytes)?;
    Ok(format!("{}\n", sum(reader.get_root())?))
}

fn main() -> Result<(), Box<dyn Error>> {
    print!("{}", lines()?);
    Ok(())
}
