//! The first bytes of commands and events. Operands follow, a byte each.

/// The first bytes of a schema file's commands.
pub mod command {
    /// With the number of tags.
    pub const TAGS: u8 = 0x10;
    /// Begins the next type's block, with its tag and its number of states; with 0 for these an expression follows.
    pub const TYPE: u8 = 0x11;
    /// With a state, in a block by states: it accepts.
    pub const FINAL: u8 = 0x12;
    /// With a state, a type and a state, in a block by states: a child of the type leads from the one to the other.
    pub const STEP: u8 = 0x13;
    /// With a type, one to eight times after all blocks: the root element may be of it.
    pub const ROOT: u8 = 0x14;
    /// Once in a block, after its expression if it has one: the type is nillable, an element of it may be opened as nil.
    pub const NIL: u8 = 0x15;
    /// The end of the file.
    pub const DONE: u8 = 0x1F;

    /// Begins brackets around a choice, in an expression.
    pub const OPEN_BRACKET: u8 = 0x30;
    /// Ends them.
    pub const CLOSE_BRACKET: u8 = 0x31;
    /// With a type, in an expression: a child of this type.
    pub const USE: u8 = 0x32;
    /// Divides what is chosen from, in an expression.
    pub const OR: u8 = 0x33;
    /// Repeats the use or the brackets right before it zero or more times, in an expression.
    pub const REPEAT: u8 = 0x34;
    /// The end of an expression.
    pub const END: u8 = 0x3F;
}

/// The first bytes of an event file's events.
pub mod event {
    /// With a tag: an element opens.
    pub const OPEN: u8 = 0x21;
    /// With a tag: the innermost element closes.
    pub const CLOSE: u8 = 0x22;
    /// With a tag: an element opens as nil. It has a nillable type and no children.
    pub const OPEN_NIL: u8 = 0x23;
    /// The document ends.
    pub const FINISH: u8 = 0x2F;
}
