//! Runs over devices in memory, of which one call may fail, and what such a run leaves.

use crate::capnp_show_engine::opener::Opener;
use crate::capnp_wire::device::DeviceFault;
use crate::capnp_wire::memory::{MemorySink, MemorySource};
use crate::fixtures::devices::{chunk, is_unread};
use crate::rattle_std::alloc::Global;
use crate::riftcalico_engine::place::Replacer;
use crate::rows::hex;
use std::fmt;

/// A kind of device that a program uses.
#[derive(Clone, Copy, Debug, PartialEq, Eq)]
pub enum Device {
    /// Each file that is opened.
    Files,
    Input,
    Output,
    Errors,
}

/// How the devices of a run behave.
#[derive(Clone, Copy)]
pub struct Devices {
    /// Whether a call moves one byte instead of up to 4096. A call of standard error always moves one.
    is_slow: bool,
    /// The device of which one call fails, and how many of its calls work before that.
    failing: Option<(Device, usize)>,
}

impl fmt::Display for Devices {
    fn fmt(&self, f: &mut fmt::Formatter<'_>) -> fmt::Result {
        f.write_str(if self.is_slow { "slow devices" } else { "fast devices" })?;
        match self.failing {
            Some((device, calls)) => write!(f, ", of which {device:?} fails after {calls} calls"),
            None => Ok(()),
        }
    }
}

/// Devices that move one byte a call, and never fail.
pub const SLOW: Devices = Devices {
    is_slow: true,
    failing: None,
};

/// Devices that move up to 4096 bytes a call, and never fail.
pub const FAST: Devices = Devices {
    is_slow: false,
    failing: None,
};

impl Devices {
    /// The same devices, but after so many calls of one, its next call fails.
    pub fn failing(self, device: Device, calls: usize) -> Devices {
        Devices {
            failing: Some((device, calls)),
            ..self
        }
    }

    /// How many calls of a device work before one fails, if one does.
    fn calls_before_failure(self, device: Device) -> Option<u64> {
        let (failing, calls) = self.failing?;
        (failing == device).then_some(calls as u64)
    }

    fn source(self, bytes: &[u8], device: Device) -> MemorySource<'_> {
        MemorySource::new(bytes, chunk(self.is_slow), self.calls_before_failure(device))
    }
}

/// A file: its path, and what it holds.
pub type File = (String, Vec<u8>);

/// The files of a run. None can be made or replaced.
pub struct Files<'a> {
    files: &'a [File],
    devices: Devices,
    /// How many times the program opened a file, or tried to.
    pub opened: usize,
}

impl Files<'_> {
    pub fn new(files: &[File], devices: Devices) -> Files<'_> {
        Files {
            files,
            devices,
            opened: 0,
        }
    }
}

impl<'a> Opener for Files<'a> {
    type File = MemorySource<'a>;

    fn open(&mut self, path: &str) -> Result<MemorySource<'a>, DeviceFault> {
        self.opened += 1;
        let (_, bytes) = self.files.iter().find(|(name, _)| name == path).ok_or(DeviceFault)?;
        Ok(self.devices.source(bytes, Device::Files))
    }
}

impl Replacer for Files<'_> {
    type New = MemorySink;

    fn make_new(&mut self, _path: &str, _like: &str) -> Result<MemorySink, DeviceFault> {
        Err(DeviceFault)
    }

    fn put_in_place(&mut self, _new: MemorySink, _path: &str, _place: &str) -> Result<(), DeviceFault> {
        Err(DeviceFault)
    }

    fn remove_new(&mut self, _new: MemorySink, _path: &str) {}
}

/// What a run leaves.
#[derive(Clone, Default, PartialEq, Eq)]
pub struct Outcome {
    pub output: Vec<u8>,
    pub errors: Vec<u8>,
    pub status: u8,
    /// Whether standard input still has all its bytes, and has some.
    pub is_unread: bool,
}

impl Outcome {
    /// Calls a program with standard input, standard output and standard error. It returns its exit status.
    pub fn of(
        input: &[u8],
        devices: Devices,
        call: impl FnOnce(&mut MemorySource<'_>, &mut MemorySink, &mut MemorySink) -> u8,
    ) -> Outcome {
        let mut source = devices.source(input, Device::Input);
        let output_chunk = chunk(devices.is_slow);
        let mut output = MemorySink::new(Global, output_chunk, devices.calls_before_failure(Device::Output));
        let mut errors = MemorySink::new(Global, 1, devices.calls_before_failure(Device::Errors));
        let status = call(&mut source, &mut output, &mut errors);
        Outcome {
            output: output.as_slice().to_vec(),
            errors: errors.as_slice().to_vec(),
            status,
            is_unread: is_unread(&mut source, input),
        }
    }

    /// The parts of the outcome. Below each stands that of the wanted outcome, if it differs.
    pub fn beside(&self, wanted: &Outcome) -> String {
        let input = |outcome: &Outcome| if outcome.is_unread { "unread" } else { "read" };
        let parts = [
            ("output", shown(&self.output), shown(&wanted.output)),
            ("errors", shown(&self.errors), shown(&wanted.errors)),
            ("status", self.status.to_string(), wanted.status.to_string()),
            ("input", input(self).to_string(), input(wanted).to_string()),
        ];
        let text = |(part, seen, wanted): &(&str, String, String)| match seen == wanted {
            true => format!(" {part}: {seen}"),
            false => format!(" {part}: {seen}\n wanted: {wanted}"),
        };
        parts.iter().map(text).collect::<Vec<_>>().join("\n")
    }
}

/// Bytes as a text, or in hexadecimal words if they are none that can be printed.
fn shown(bytes: &[u8]) -> String {
    let is_plain = |text: &&str| !text.chars().any(|letter| letter.is_control() && letter != '\n');
    match std::str::from_utf8(bytes).ok().filter(is_plain) {
        Some("") => "nothing".to_string(),
        Some(text) => {
            let (text, end) = text
                .strip_suffix('\n')
                .map_or((text, " (without a line end)"), |text| (text, ""));
            format!("{}{end}", text.replace('\n', "\n         "))
        }
        None => hex(bytes),
    }
}
