//! The controller by itself: every operation of irqc.rs on random and limit states, with addresses of all 32 bits.

use super::Count;
use crate::bus::Device;
use crate::controller;
use crate::generate::Random;
use crate::irqc::IrqController;

/// Words at limits, and two with alternating bits.
const WORDS: [u16; 8] = [0, 1, 8, 0x00FF, 0x5555, 0x8000, 0xAAAA, 0xFFFF];
/// Random states beside the limit ones.
const STATES: usize = 2_000;

/// An operation with its arguments.
#[derive(Clone, Copy, Debug)]
enum Operation {
    Reset,
    Pending,
    EnableMask,
    SetEnableMask(u16),
    SetSource(u8, bool),
    SetSourceLevels(u16, u16),
    ClearPending(u16),
    IrqOutput,
    Read(u32),
    DebugRead(u32),
    Write(u32, u8),
    Size,
}

/// The three words after an operation, and its result, where it has one.
type Shown = ([u16; 3], Option<u32>);

/// Compares every operation on every state, and the state of a new controller.
pub fn compare() -> Result<Count, String> {
    let mut count = Count::default();
    let fresh = (
        rust_words(&mut IrqController::new()),
        proved_words(&pec::Controller::new()),
    );
    if fresh.0 != fresh.1 {
        return Err(format!(
            "a new controller: the Rust has {:x?}, the proved one {:x?}",
            fresh.0, fresh.1
        ));
    }
    count.comparisons += 1;
    let mut random = Random::new(1);
    for state in states(&mut random) {
        for operation in operations(&mut random) {
            let rust = of_rust(state, operation);
            let proved = of_proved(state, operation);
            if rust != proved {
                return Err(format!(
                    "{operation:x?} on pending, enable, levels {state:x?}: the Rust {rust:x?}, \
                     the proved one {proved:x?}"
                ));
            }
            count.comparisons += 1;
        }
    }
    Ok(count)
}

/// Pending, enable and levels: every combination of limits, and random ones.
fn states(random: &mut Random) -> Vec<[u16; 3]> {
    let mut states = Vec::new();
    for pending in WORDS {
        for enable in WORDS {
            states.extend(WORDS.map(|levels| [pending, enable, levels]));
        }
    }
    states.extend((0..STATES).map(|_| [(); 3].map(|()| random.word() as u16)));
    states
}

fn operations(random: &mut Random) -> Vec<Operation> {
    use Operation::*;
    let mut operations = vec![Reset, Pending, EnableMask, IrqOutput, Size];
    for mask in WORDS.into_iter().chain([random.word() as u16]) {
        operations.extend([SetEnableMask(mask), ClearPending(mask)]);
        let levels = WORDS.into_iter().chain([random.word() as u16]);
        operations.extend(levels.map(|levels| SetSourceLevels(mask, levels)));
    }
    for number in (0..=17).chain([127, 128, 255]) {
        operations.extend([SetSource(number, false), SetSource(number, true)]);
    }
    let bits = (0..32).flat_map(|bit| [1 << bit, (1u32 << bit).wrapping_sub(1), (1 << bit) + 1]);
    let any = [random.word() as u32, random.word() as u32, u32::MAX];
    for address in (0..=17).chain(bits).chain(any) {
        operations.extend([Read(address), DebugRead(address), Write(address, random.word() as u8)]);
        operations.extend([Write(address, 0), Write(address, 255)]);
    }
    operations
}

/// Carries out an operation on a controller of either kind, whose methods have the same names, and gives its result.
macro_rules! result_of {
    ($irqc:ident, $operation:expr, $debug_read:expr) => {
        match $operation {
            Operation::Reset => no_result($irqc.reset()),
            Operation::Pending => Some(u32::from($irqc.pending())),
            Operation::EnableMask => Some(u32::from($irqc.enable_mask())),
            Operation::SetEnableMask(mask) => no_result($irqc.set_enable_mask(mask)),
            Operation::SetSource(number, level) => no_result($irqc.set_source(number, level)),
            Operation::SetSourceLevels(mask, levels) => no_result($irqc.set_source_levels(mask, levels)),
            Operation::ClearPending(mask) => no_result($irqc.clear_pending(mask)),
            Operation::IrqOutput => {
                let output = $irqc.irq_output();
                Some(u32::from(output.valid) << 8 | u32::from(output.number))
            }
            Operation::Read(address) => Some(u32::from($irqc.read(address))),
            Operation::DebugRead(address) => $debug_read(&mut $irqc, address).map(u32::from),
            Operation::Write(address, value) => no_result($irqc.write(address, value)),
            Operation::Size => Some($irqc.size()),
        }
    };
}

fn no_result((): ()) -> Option<u32> {
    None
}

fn rust_words(irqc: &mut IrqController) -> [u16; 3] {
    [irqc.pending(), irqc.enable_mask(), controller::levels(irqc)]
}

/// Pending, enable and levels of a controller of the proved library.
pub fn proved_words(irqc: &pec::Controller) -> [u16; 3] {
    [irqc.pending(), irqc.enable_mask(), irqc.levels()]
}

fn of_rust([pending, enable, levels]: [u16; 3], operation: Operation) -> Shown {
    let mut irqc = IrqController::new();
    controller::set(&mut irqc, pending, levels);
    irqc.set_enable_mask(enable);
    // A `None` here would be a difference: the proved operation gives the byte that the Rust has in `Some`.
    let result = result_of!(irqc, operation, |irqc: &mut IrqController, address| irqc
        .debug_read(address));
    (rust_words(&mut irqc), result)
}

fn of_proved([pending, enable, levels]: [u16; 3], operation: Operation) -> Shown {
    let mut irqc = pec::Controller::from_words(pending, enable, levels);
    let result = result_of!(irqc, operation, |irqc: &mut pec::Controller, address| Some(
        irqc.debug_read(address)
    ));
    (proved_words(&irqc), result)
}
