//! Messages that are put at once.

use crate::error::must;
use crate::{on, raw, Error, Queues};
use std::fmt;

/// Some of several messages were not put.
#[derive(Debug)]
pub struct Unsent {
    /// Of all messages, in their order; `None` for each that was not put.
    pub serials: Vec<Option<u64>>,
    /// What the first of these was told.
    pub error: Error,
}

impl fmt::Display for Unsent {
    fn fmt(&self, to: &mut fmt::Formatter<'_>) -> fmt::Result {
        let sent = self.serials.iter().flatten().count();
        write!(
            to,
            "{} ({sent} of {} messages were put)",
            self.error,
            self.serials.len()
        )
    }
}

impl std::error::Error for Unsent {
    fn source(&self) -> Option<&(dyn std::error::Error + 'static)> {
        Some(&self.error)
    }
}

impl Queues {
    /// Puts messages, each of a type and a body, on a queue in their order, as `send` does that does not wait; returns their serials. A
    /// server has up to 32 of them at once, and saves them together.
    ///
    /// # Errors
    /// What `send` tells the first that is refused. In a file those behind it are not put; at a server one may be, where others fill the
    /// queue meanwhile.
    pub fn send_all(&self, id: u32, messages: &[(i64, &[u8])]) -> Result<Vec<u64>, Unsent> {
        let mut all: Vec<_> = messages
            .iter()
            .map(|&(mtype, body)| raw::Outgoing {
                mtype,
                body: body.as_ptr(),
                length: body.len(),
                serial: 0,
            })
            .collect();
        // SAFETY: the handle is one, and the bodies outlive the call.
        let told = unsafe { raw::msgq_send_all(self.at, id, all.as_mut_ptr(), all.len()) };
        let serials = all.iter().map(|it| it.serial);
        match must(told, on(id)) {
            Ok(()) => Ok(serials.collect()),
            Err(error) => Err(Unsent {
                serials: serials.map(|it| (it > 0).then_some(it)).collect(),
                error,
            }),
        }
    }
}
