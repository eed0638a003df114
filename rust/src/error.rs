//! What a call is refused.

use crate::raw;
use std::ffi::c_int;
use std::fmt;
use std::io;

/// A refusal, a fault of a file, or what the system said.
///
/// Its text is the library's sentence, with the error's name and number and that of the fault where there is one:
/// `queues: queue 7: ENOENT: no queue has this key (errno 2)`.
#[derive(Clone, Debug, PartialEq, Eq)]
pub struct Error {
    /// The number of the system's `errno.h`.
    pub errno: i32,
    /// The number of docs/FAULTS.md, where one stands behind it.
    pub fault: Option<u32>,
    text: String,
}

/// The names of the numbers that the library tells, as Linux has them.
const NAMES: [(i32, &str); 26] = [
    (1, "EPERM"),
    (2, "ENOENT"),
    (4, "EINTR"),
    (5, "EIO"),
    (7, "E2BIG"),
    (9, "EBADF"),
    (11, "EAGAIN"),
    (12, "ENOMEM"),
    (13, "EACCES"),
    (16, "EBUSY"),
    (17, "EEXIST"),
    (20, "ENOTDIR"),
    (21, "EISDIR"),
    (EINVAL, "EINVAL"),
    (27, "EFBIG"),
    (28, "ENOSPC"),
    (30, "EROFS"),
    (42, "ENOMSG"),
    (43, "EIDRM"),
    (71, "EPROTO"),
    (74, "EBADMSG"),
    (95, "ENOTSUP"),
    (104, "ECONNRESET"),
    (107, "ENOTCONN"),
    (110, "ETIMEDOUT"),
    (111, "ECONNREFUSED"),
];

pub(crate) const ENOENT: i32 = 2;
pub(crate) const EINVAL: i32 = 22;

impl Error {
    /// The name of its number, as `ENOENT`, where it is one that the library tells.
    pub fn name(&self) -> Option<&'static str> {
        NAMES
            .iter()
            .find(|(number, _)| *number == self.errno)
            .map(|(_, name)| *name)
    }

    /// An argument that is none, of which the library is not told.
    pub(crate) fn invalid(text: &str) -> Error {
        Error {
            errno: EINVAL,
            fault: None,
            text: text.to_string(),
        }
    }
}

impl fmt::Display for Error {
    fn fmt(&self, to: &mut fmt::Formatter<'_>) -> fmt::Result {
        write!(to, "{} (", self.text)?;
        if let Some(name) = self.name().filter(|name| !self.text.contains(name)) {
            write!(to, "{name}, ")?;
        }
        write!(to, "errno {}", self.errno)?;
        if let Some(fault) = self
            .fault
            .filter(|fault| !self.text.contains(&format!("fault {fault})")))
        {
            write!(to, ", fault {fault}")?;
        }
        write!(to, ")")
    }
}

impl std::error::Error for Error {}

/// The kind is that of the number, and the error itself stands behind `get_ref`.
impl From<Error> for io::Error {
    fn from(error: Error) -> io::Error {
        io::Error::new(io::Error::from_raw_os_error(error.errno).kind(), error)
    }
}

/// The library's sentence for the last error that it told this thread; empty where it has none.
#[cfg(has_reason)]
fn sentence() -> String {
    // SAFETY: it is a text that ends in a zero, and stands until this thread's next call.
    unsafe { std::ffi::CStr::from_ptr(raw::msgq_reason()) }
        .to_string_lossy()
        .into_owned()
}

#[cfg(not(has_reason))]
fn sentence() -> String {
    String::new()
}

/// What the system says of a number, without the number that stands behind it.
fn system_says(errno: c_int) -> String {
    let said = io::Error::from_raw_os_error(errno).to_string();
    said.split(" (os error")
        .next()
        .unwrap_or_default()
        .to_string()
}

/// The error that the library has just told this thread of a call on something.
pub(crate) fn must(errno: c_int, what: impl fmt::Display) -> Result<(), Error> {
    must_or(errno, || format!("{what}: {}", system_says(errno)))
}

/// The same, with these words where the library has no sentence.
pub(crate) fn must_or(errno: c_int, words: impl FnOnce() -> String) -> Result<(), Error> {
    if errno == 0 {
        return Ok(());
    }
    // SAFETY: it reads a number of this thread.
    let fault = unsafe { raw::msgq_last_fault() };
    let said = sentence();
    Err(Error {
        errno,
        fault: (fault > 0).then_some(fault),
        text: if said.is_empty() { words() } else { said },
    })
}
