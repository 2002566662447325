/// The type of the expression on a line of a sheet. `ty as u8` is its code in the type table.
#[derive(Clone, Copy, Debug, PartialEq, Eq, Hash)]
#[repr(u8)]
pub enum Type {
    /// No rule asked for its type before the verdict.
    NotReached = 0,
    /// A number.
    Int = 1,
    /// A boolean.
    Bool = 2,
    /// An address.
    Address = 3,
    /// An asset.
    Asset = 4,
    /// A single 64 bit word.
    Word64 = 5,
    /// A name.
    Name = 6,
    /// A time.
    Time = 7,
    /// A string.
    Str = 8,
    /// A Map, Registry or GuardianSet.
    Collection = 9,
    /// The rules know no type for it.
    Unknown = 10,
    /// The refusal came while it was typed.
    Refused = 11,
}

impl Type {
    /// The type of a code. The library writes none above 11.
    pub(crate) fn of(code: u8) -> Type {
        match code {
            0 => Type::NotReached,
            1 => Type::Int,
            2 => Type::Bool,
            3 => Type::Address,
            4 => Type::Asset,
            5 => Type::Word64,
            6 => Type::Name,
            7 => Type::Time,
            8 => Type::Str,
            9 => Type::Collection,
            10 => Type::Unknown,
            _ => Type::Refused,
        }
    }
}
