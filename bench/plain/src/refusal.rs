// Why a file or a text is refused.
use std::fmt;

#[derive(Clone, Copy, Debug, PartialEq, Eq)]
pub enum Refusal {
    ShortFile,
    Signature,
    Header,
    FileLength,
    Record(u16),
    NameList,
    TextLength,
    NoToken(usize),
    Grammar(usize),
    UnknownName(usize),
    SheetFull,
}

// Its line.
impl fmt::Display for Refusal {
    fn fmt(&self, f: &mut fmt::Formatter<'_>) -> fmt::Result {
        use Refusal::*;
        match *self {
            ShortFile => writeln!(f, "refused 1"),
            Signature => writeln!(f, "refused 2"),
            Header => writeln!(f, "refused 3"),
            FileLength => writeln!(f, "refused 4"),
            Record(mode) => writeln!(f, "refused 5 at {mode}"),
            NameList => writeln!(f, "refused 10"),
            TextLength => writeln!(f, "refused 11"),
            NoToken(at) => writeln!(f, "refused 12 at {at}"),
            Grammar(at) => writeln!(f, "refused 13 at {at}"),
            UnknownName(at) => writeln!(f, "refused 14 at {at}"),
            SheetFull => writeln!(f, "refused 15"),
        }
    }
}
