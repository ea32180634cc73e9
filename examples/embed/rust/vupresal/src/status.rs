use std::error;
use std::fmt;
use vupresal_sys as sys;

/// Why there is no decision. The request is to be refused.
#[derive(Clone, Copy, Debug, PartialEq, Eq)]
#[non_exhaustive]
pub enum Error {
    /// The request, or a text of its facts, is malformed.
    BadRequest,
    /// The request is outside the limits.
    OutsideLimits,
    /// The request has a Transfer-Encoding.
    TransferCoding,
    /// Memory ran out.
    Memory,
    /// Another status of the library.
    Other(i32),
}

impl Error {
    pub(crate) fn unless_ok(status: i32) -> Result<(), Self> {
        match status {
            sys::VUPRESAL_OK => Ok(()),
            sys::VUPRESAL_BAD_REQUEST => Err(Self::BadRequest),
            sys::VUPRESAL_OUTSIDE_LIMITS => Err(Self::OutsideLimits),
            sys::VUPRESAL_TRANSFER_CODING => Err(Self::TransferCoding),
            sys::VUPRESAL_MEMORY => Err(Self::Memory),
            other => Err(Self::Other(other)),
        }
    }

    /// The status of HTTP by which a server answers.
    pub fn http_status(self) -> u16 {
        match self {
            Self::BadRequest => 400,
            Self::OutsideLimits => 431,
            Self::TransferCoding => 501,
            Self::Memory | Self::Other(_) => 503,
        }
    }
}

impl fmt::Display for Error {
    fn fmt(&self, to: &mut fmt::Formatter<'_>) -> fmt::Result {
        match self {
            Self::BadRequest => to.write_str("the request or a text of its facts is malformed"),
            Self::OutsideLimits => to.write_str("the request is outside the limits"),
            Self::TransferCoding => to.write_str("the request has a Transfer-Encoding field"),
            Self::Memory => to.write_str("memory ran out"),
            Self::Other(status) => write!(to, "status {}", status),
        }
    }
}

impl error::Error for Error {}

/// Why a filter's message is refused.
#[derive(Clone, Debug, PartialEq, Eq)]
pub struct Refusal {
    status: i32,
    place: String,
}

impl Refusal {
    pub(crate) fn new(status: i32, place: String) -> Self {
        Self { status, place }
    }

    /// The status of a library that is not the expected one.
    pub(crate) fn other_library() -> Self {
        Self::new(i32::MIN, String::from("the library is of another ABI or older than this crate"))
    }

    /// The status of a name that cannot be ignored.
    pub(crate) fn of_ignored(name: &str, fault: &str) -> Self {
        Self::new(sys::VUPRESAL_OUT_OF_RANGE, format!("ignore: {:?} {}", name, fault))
    }

    /// The library's status, as the header has it.
    pub fn status(&self) -> i32 {
        self.status
    }

    /// The part of the message that has the fault, or the ignored name; it may be empty.
    pub fn place(&self) -> &str {
        &self.place
    }
}

impl fmt::Display for Refusal {
    fn fmt(&self, to: &mut fmt::Formatter<'_>) -> fmt::Result {
        write!(to, "the filter is refused: status {}", self.status)?;
        if self.place.is_empty() {
            return Ok(());
        }
        write!(to, ": {}", self.place)
    }
}

impl error::Error for Refusal {}
