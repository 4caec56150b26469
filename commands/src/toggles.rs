//! Ways to break the commands on purpose, for their tests: with the feature `toggles` the variable JIDLEKUVO_BROKEN names
//! one, and the test of that row must notice it. In every other build `broken` is plainly false.

macro_rules! toggles {
    ($($name:ident: $what:literal,)*) => {
        #[derive(Clone, Copy, Debug, PartialEq, Eq)]
        pub enum Broken { $($name,)* }

        /// Every toggle with its name and what it breaks.
        pub const ALL: &[(Broken, &str, &str)] = &[$((Broken::$name, stringify!($name), $what),)*];
    };
}

toggles! {
    SlowDigits: "a digit of a hexadecimal plan takes half a millisecond",
    SlowOutcomes: "an outcome takes a millisecond",
    OutcomeAbove255: "an outcome of 256 is taken as 0",
    WriteFailureIgnored: "output that fails is not looked at",
    ClosedOutputTaken: "a closed standard output takes all that is written",
    TableGathered: "the rows are held back until the table is whole",
    ProgramLeftAlone: "the program runs on after a reader has closed",
    CutTableTaken: "a table without its last line counts as whole",
    RefusedTableIs0: "a table that ends in refused is answered with 0",
    OnlyPureDigitsAreText: "text that is not hexadecimal is judged as bytes",
    CommentIsNoText: "a comment is not passed over",
    ColumnFromZero: "columns are counted from 0",
    KeepsOneByteLess: "34,433 bytes are kept",
    ReadsToTheEnd: "a file is read to its end",
    DashIsAFile: "- is the name of a file",
    HelpIsAFile: "--help is the name of a file",
    DirectoryIsNoFile: "a directory is no such file",
    QuickUntold: "--quick does not say that its answer is not proved",
}

#[cfg(feature = "toggles")]
pub fn broken(toggle: Broken) -> bool {
    use std::sync::OnceLock;
    static ON: OnceLock<Option<String>> = OnceLock::new();
    let on = ON.get_or_init(|| std::env::var("JIDLEKUVO_BROKEN").ok());
    on.as_ref().is_some_and(|on| *on == format!("{toggle:?}"))
}

#[cfg(not(feature = "toggles"))]
#[inline(always)]
pub fn broken(_: Broken) -> bool {
    false
}
