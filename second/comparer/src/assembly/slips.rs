//! Wrong variants of the reference, for the comparer's own test.

macro_rules! slips {
    ($($(#[$text:meta])* $name:ident,)*) => {
        #[derive(Clone, Copy, Debug, PartialEq, Eq)]
        pub enum Slip { $($(#[$text])* $name,)* }

        impl Slip {
            pub const ALL: &'static [Slip] = &[$(Slip::$name,)*];

            pub fn name(self) -> &'static str {
                match self { $(Slip::$name => stringify!($name),)* }
            }

            pub fn by_name(name: &str) -> Option<Slip> {
                Slip::ALL.iter().copied().find(|slip| slip.name() == name)
            }
        }
    };
}

slips! {
    // The writer.
    NfixWithoutComplement,
    PfixForNegative,
    AlwaysEightBytes,
    /// 16 taken for an operand without a prefix.
    NoPrefixFor16,
    // The text.
    LinesFromZero,
    /// Empty lines and comments are not counted.
    OnlyCodeLinesCounted,
    LastBadLineTold,
    /// The bytes before a bad line are written.
    WritesBeforeBadLine,
    PrefixesAllowed,
    /// A decimal operand above the range wraps.
    DecimalWraps,
    /// A hex operand may have nine digits.
    NineDigits,
    /// Words behind the operand are skipped.
    RestOfLineSkipped,
    CarriageReturnIsNoBlank,
    // The listing.
    UnsignedOperand,
    /// An operation that is not built is listed as its code alone.
    UnknownByNumber,
    /// An operation that is built is listed as opr and its code.
    KnownByNumber,
    /// The unfinished chain at the end is dropped.
    LastChainDropped,
    LowerCaseBytes,
    /// The bits that a long chain shifts out are kept.
    WideOperand,
    NfixShiftsFirst,
    AddressesFromZero,
}
