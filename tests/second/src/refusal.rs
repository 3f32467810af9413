//! The refusal numbers of the rules (5.4, 9.2, 10.2, 12.9, 13.5 to 13.7), one name for each.
//!
//! Assumes nothing. The order in which an event tests them is the event's own matter.

use crate::state::ResourceNumber;

/// Each refusal stands once, with its number. A plain enumeration could not: one of them carries
/// what is told after its number.
macro_rules! refusals {
    ($($name:ident $(($follows:ty))? = $number:literal,)*) => {
        /// Why a request was not carried out.
        #[derive(Clone, Copy, Debug, PartialEq, Eq)]
        pub enum Refusal {
            $($name $(($follows))?,)*
        }

        impl Refusal {
            /// The number that is told.
            pub fn number(self) -> u16 {
                match self {
                    $(Refusal::$name { .. } => $number,)*
                }
            }
        }
    };
}

refusals! {
    StateNotSound = 1,
    NoSuchTaskOrServer = 2,
    NoSuchResource = 3,
    ResourceNotDeclared = 4,
    TaskNotSuspended = 5,
    ServerNotActive = 7,
    NoProcessorFree = 8,
    ServerNotRunning = 9,
    TicksOutOfRange = 10,
    ClockPastLimit = 11,
    TicksAboveBudget = 12,
    ServerNotRecharging = 13,
    ClockBeforeDeadline = 14,
    AlreadyHeld = 15,
    ChainWouldClose = 16,
    NotOwned = 17,
    NotTopOfStack = 18,
    CountsOutOfRange = 19,
    QuotaOrPeriodOutOfRange = 20,
    DeclaredResourceAbsent = 21,
    TooFewMeterRows = 22,
    RecordCutShort = 30,
    RecordMalformed = 31,
    RecordOutOfOrder = 32,
    FileTooLong = 33,
    SectionCountsOutOfRange = 40,
    SectionOutOfRange = 41,
    ResourceNotAboveParent = 42,
    ChildrenTooLong = 43,
    NoSuchTaskInTable = 44,
    AllowanceOutOfRange = 45,
    AllowanceExceeded = 46,
    TaskSuspended = 61,
    TaskWaiting(ResourceNumber) = 62,
    TaskNotServed = 63,
}

impl Refusal {
    /// What is told after the number: the resource that a waiting task awaits, and nothing else.
    pub fn follows(self) -> Option<u16> {
        match self {
            Refusal::TaskWaiting(awaited) => Some(awaited.0),
            _ => None,
        }
    }
}

/// Goes on when the condition holds and refuses otherwise.
pub(crate) fn require(condition: bool, refusal: Refusal) -> Result<(), Refusal> {
    if condition {
        Ok(())
    } else {
        Err(refusal)
    }
}
