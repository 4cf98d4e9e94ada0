//! Why a call is refused, and where a text stops being a notice.

#[derive(Clone, Copy, Debug, PartialEq, Eq)]
pub enum Refusal {
    Size,
    Shut,
    NoPart,
    NoSetting(NoSuchSetting),
    Stands,
    StandsNot,
    NoChain,
    Joined,
    NoSeed,
    NoEntry,
    NoRoom,
    LastNumber,
    SheetWritten,
    NoNotice(Fault),
    OutOfTurn,
    OutOfRange,
    SameBucket,
}

/// The one fault of a setting kind: the numbers are no setting of the kind.
#[derive(Clone, Copy, Debug, PartialEq, Eq)]
pub struct NoSuchSetting;

/// The first wrong token of a text that is no notice.
#[derive(Clone, Copy, Debug, PartialEq, Eq)]
pub struct Fault {
    pub place: usize,
    pub cause: Cause,
}

#[derive(Clone, Copy, Debug, PartialEq, Eq)]
pub enum Cause {
    Byte,
    Word,
    Setting(NoSuchSetting),
}

impl Refusal {
    pub fn number(self) -> usize {
        match self {
            Refusal::Size => 1,
            Refusal::Shut => 2,
            Refusal::NoPart => 3,
            Refusal::NoSetting(_) => 4,
            Refusal::Stands => 5,
            Refusal::StandsNot => 6,
            Refusal::NoChain => 7,
            Refusal::Joined => 8,
            Refusal::NoSeed => 9,
            Refusal::NoEntry => 10,
            Refusal::NoRoom => 11,
            Refusal::LastNumber => 12,
            Refusal::SheetWritten => 13,
            Refusal::NoNotice(_) => 14,
            Refusal::OutOfTurn => 15,
            Refusal::OutOfRange => 16,
            Refusal::SameBucket => 17,
        }
    }

    /// The refusal as an answer in numbers: only a text that is no notice says more than its number.
    pub fn answer(self) -> Vec<usize> {
        match self {
            Refusal::NoNotice(Fault { place, cause }) => [&[14, place], &cause.answer()[..]].concat(),
            other => vec![other.number()],
        }
    }
}

impl Cause {
    pub fn name(self) -> &'static str {
        match self {
            Cause::Byte => "byte",
            Cause::Word => "word",
            Cause::Setting(_) => "setting",
        }
    }

    /// The cause in numbers: behind that of a setting comes the setting's own fault.
    fn answer(self) -> Vec<usize> {
        match self {
            Cause::Byte => vec![0],
            Cause::Word => vec![1],
            Cause::Setting(fault) => vec![2, Refusal::NoSetting(fault).number()],
        }
    }
}
