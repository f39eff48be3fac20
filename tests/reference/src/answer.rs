//! Answers and statuses by number, as document 01 gives them.

/// An answer other than 0: the call was refused or held.
#[derive(Clone, Copy, Debug, PartialEq, Eq)]
#[repr(u8)]
pub enum Refusal {
    RecordLength = 1,
    NotLive = 2,
    WrongState = 3,
    BadField = 4,
    PeerNotReady = 5,
    NoPlace = 6,
    MemoryLength = 7,
    Full = 8,
    Nothing = 9,
    InUse = 10,
    Range = 11,
    BufferTooShort = 12,
    Unknown = 13,
    BadTapeRecord = 14,
    BadState = 15,
}

/// How a work request ended.
#[derive(Clone, Copy, Debug, PartialEq, Eq)]
#[repr(u8)]
pub enum Status {
    Success = 0,
    LocalLength = 1,
    LocalProtection = 3,
    Flushed = 4,
    RemoteInvalid = 7,
    RemoteAccess = 8,
}

/// What a call gives back: answer and status by number, and of a turn the queue pair that it served.
#[derive(Clone, Copy, Debug, Default, PartialEq, Eq)]
pub struct Outcome {
    pub answer: u8,
    pub status: u8,
    pub served: u8,
}

impl Outcome {
    pub const DONE: Outcome = Outcome { answer: 0, status: 0, served: 0 };

    /// Of a work request that was done.
    pub const fn ended(status: u8) -> Outcome {
        Outcome { status, ..Outcome::DONE }
    }

    /// The number that the C functions return: answer in bits 0 to 7, status in bits 8 to 15, the queue pair served in bits 16 to 23.
    #[inline]
    pub fn to_bits(self) -> u32 {
        u32::from(self.answer) | u32::from(self.status) << 8 | u32::from(self.served) << 16
    }

    #[inline]
    pub fn from_bits(bits: u32) -> Outcome {
        Outcome { answer: bits as u8, status: (bits >> 8) as u8, served: (bits >> 16) as u8 }
    }
}

impl From<Refusal> for Outcome {
    fn from(refusal: Refusal) -> Outcome {
        Outcome { answer: refusal as u8, status: 0, served: 0 }
    }
}

impl From<Result<Status, Refusal>> for Outcome {
    fn from(result: Result<Status, Refusal>) -> Outcome {
        match result {
            Ok(status) => Outcome::ended(status as u8),
            Err(refusal) => refusal.into(),
        }
    }
}

impl From<Result<(), Refusal>> for Outcome {
    fn from(result: Result<(), Refusal>) -> Outcome {
        result.map(|()| Status::Success).into()
    }
}

/// Of a turn: which queue pair it served, and how the work request ended.
impl From<Result<(usize, Status), Refusal>> for Outcome {
    fn from(result: Result<(usize, Status), Refusal>) -> Outcome {
        match result {
            Ok((served, status)) => Outcome { served: served as u8, ..Outcome::ended(status as u8) },
            Err(refusal) => refusal.into(),
        }
    }
}
