//! Document 01, "Memory and registers": which word is which, and the bits that have a name.

pub const REGISTERS: usize = 45;
pub type Registers = [u32; REGISTERS];

pub const IPTR: usize = 0;
pub const WDESC: usize = 1;
pub const A: usize = 2;
pub const B: usize = 3;
pub const C: usize = 4;
pub const OREG: usize = 5;
pub const STATUS: usize = 6;
/// Front and back of the high queue, then of the low queue.
pub const FPTR: [usize; 2] = [7, 9];
pub const BPTR: [usize; 2] = [8, 10];
pub const CLOCK: [usize; 2] = [11, 12];
pub const TNEXT: [usize; 2] = [13, 14];
pub const PRESCALER: usize = 15;
pub const SLICE: usize = 16;
pub const FLAGS: usize = 17;

// Bits of FLAGS.
pub const CLOCKS_RUN: u32 = 1;
pub const TENABLED: [u32; 2] = [2, 4];
pub const IDLE: u32 = 8;
pub const HALTED: u32 = 16;

// Bits of Status. Bits 2 to 6 travel with Status and are never set, cleared or obeyed, but for
// the one question whether to save E (DECISIONS 21).
pub const GOTO_SNP: u32 = 1 << 1;
pub const MOVE_BIT: u32 = 1 << 3;
pub const HALT_ON_ERROR: u32 = 1 << 7;
pub const ERROR_FLAG: u32 = 1 << 31;
pub const SAVED_ONLY: u32 = 0b111_1100;

// The hard channels.
pub const LINK_CHANS: usize = 9;
pub const EVENT: usize = 8;

/// The channel's pointer register; count and flags follow it.
pub const fn pointer_of(channel: usize) -> usize {
    18 + 3 * channel
}
pub const fn count_of(channel: usize) -> usize {
    pointer_of(channel) + 1
}
pub const fn flags_of(channel: usize) -> usize {
    pointer_of(channel) + 2
}

// Bits of a channel's flags; the byte held stands in bits 8 to 15.
pub const ACTIVE: u32 = 1;
pub const ENABLED: u32 = 2;
pub const HELD: u32 = 4;
pub const RUN_REQUEST: u32 = 8;
pub const READY_REQUEST: u32 = 16;
pub const HELD_BYTE: u32 = 0xFF00;

// Special values of document 000, 1.4, with the numbers of document 01.
pub const MIN_INT: u32 = 0x8000_0000;
pub const NOT_PROCESS: u32 = MIN_INT;
pub const ENABLING: u32 = MIN_INT + 1;
pub const WAITING: u32 = MIN_INT + 2;
pub const READY: u32 = MIN_INT + 3;
pub const TIME_SET: u32 = MIN_INT + 1;
pub const TIME_NOT_SET: u32 = MIN_INT + 2;
pub const NONE_SELECTED: u32 = u32::MAX;
/// The descriptor of "no process" at low priority.
pub const NO_LOW_PROCESS: u32 = NOT_PROCESS | 1;

// Word offsets from a workspace pointer, document 000, 1.3.
pub const IPTR_S: u32 = below(1);
pub const LINK_S: u32 = below(2);
pub const STATE_S: u32 = below(3);
pub const POINTER_S: u32 = below(3);
pub const TLINK_S: u32 = below(4);
pub const TIME_S: u32 = below(5);

/// A word offset below a pointer.
pub const fn below(words: u32) -> u32 {
    words.wrapping_neg()
}

// Special places in memory, as addresses (DECISIONS 40).
pub const PORT_BASE: u32 = MIN_INT;
pub const TIMER_BASE: u32 = word(9);
pub const SAVE_BASE: u32 = word(11);
pub const MEM_START: u32 = word(18);

// Offsets in the save area.
pub const WDESC_INT_SAVE: u32 = 0;
pub const IPTR_INT_SAVE: u32 = 1;
pub const AREG_INT_SAVE: u32 = 2;
pub const BREG_INT_SAVE: u32 = 3;
pub const CREG_INT_SAVE: u32 = 4;
pub const STATUS_INT_SAVE: u32 = 5;
pub const EREG_INT_SAVE: u32 = 6;

/// The address of memory word `index`.
pub const fn word(index: u32) -> u32 {
    MIN_INT.wrapping_add(4 * index)
}
