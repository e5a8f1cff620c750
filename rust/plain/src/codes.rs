//! The first bytes of the commands and the events.

// Commands of a schema file.
pub const TAGS: u8 = 0x10;
pub const TYPE: u8 = 0x11;
pub const FINAL: u8 = 0x12;
pub const STEP: u8 = 0x13;
pub const ROOT: u8 = 0x14;
pub const NIL: u8 = 0x15;
pub const DONE: u8 = 0x1F;

// Commands of an expression in a schema file.
pub const OPEN_BRACKET: u8 = 0x30;
pub const CLOSE_BRACKET: u8 = 0x31;
pub const USE: u8 = 0x32;
pub const NEXT: u8 = 0x33;
pub const REPEAT: u8 = 0x34;
pub const END: u8 = 0x3F;

// Events of an event file.
pub const OPEN: u8 = 0x21;
pub const CLOSE: u8 = 0x22;
pub const OPEN_NIL: u8 = 0x23;
pub const FINISH: u8 = 0x2F;
