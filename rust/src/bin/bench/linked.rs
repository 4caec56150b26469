//! The functions of the Rattle side, each if its feature is on.

pub type Verdict = fn(&[u8]) -> u64;
pub type Writer = fn(&[u8], &mut [u8]) -> u64;
pub type Driver = fn(&[u8], &mut [u8]) -> usize;

macro_rules! linked {
    ($name:ident, $feature:literal, $kind:ty) => {
        pub fn $name() -> Option<$kind> {
            #[cfg(feature = $feature)]
            let found: Option<$kind> = Some(jidlekuvo_reference::compare::rattle::$name);
            #[cfg(not(feature = $feature))]
            let found: Option<$kind> = None;
            found
        }
    };
}

linked!(read, "rattle_read", Verdict);
linked!(write_back, "rattle_write_back", Writer);
linked!(activities, "rattle_activities", Verdict);
linked!(judge, "rattle_judge", Verdict);
linked!(drive, "rattle_drive", Driver);
linked!(link, "rattle_link", Driver);

/// The functions that a host links, in the form of `drive`.
pub fn host() -> Option<Driver> {
    #[cfg(feature = "rattle_host")]
    let found: Option<Driver> = Some(jidlekuvo_reference::compare::host::drive);
    #[cfg(not(feature = "rattle_host"))]
    let found: Option<Driver> = None;
    found
}
