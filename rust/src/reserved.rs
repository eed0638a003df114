//! Messages that a server holds.

use crate::error::must;
use crate::values::Message;
use crate::{on, raw, Error, Queues};
use std::ffi::c_int;
use std::ops::Deref;

/// A message that a server holds until it is dealt with. Where it is dropped without `acknowledge` it is released; and so it is where the
/// thread that has reserved it ends, its process or the server.
#[derive(Debug)]
#[must_use = "it is released where it is dropped"]
pub struct Reserved<'a> {
    queues: &'a Queues,
    id: u32,
    message: Message,
    is_held: bool,
}

type Settling = unsafe extern "C" fn(raw::Handle, u32) -> c_int;

impl<'a> Reserved<'a> {
    pub(crate) fn new(queues: &'a Queues, id: u32, message: Message) -> Reserved<'a> {
        Reserved {
            queues,
            id,
            message,
            is_held: true,
        }
    }

    /// The id of the queue that holds it.
    pub fn id(&self) -> u32 {
        self.id
    }

    /// It is dealt with, and gone.
    ///
    /// # Errors
    /// `EINVAL` where it is held no longer.
    pub fn acknowledge(self) -> Result<(), Error> {
        self.settle(raw::msgq_acknowledge)
    }

    /// It is sent to its queue again, last.
    ///
    /// # Errors
    /// `EINVAL` where it is held no longer.
    pub fn release(self) -> Result<(), Error> {
        self.settle(raw::msgq_release)
    }

    fn settle(mut self, call: Settling) -> Result<(), Error> {
        // SAFETY: the handle outlives this.
        let told = must(unsafe { call(self.queues.at, self.id) }, on(self.id));
        self.is_held = told.is_err();
        told
    }
}

impl Deref for Reserved<'_> {
    type Target = Message;

    fn deref(&self) -> &Message {
        &self.message
    }
}

impl Drop for Reserved<'_> {
    fn drop(&mut self) {
        if self.is_held {
            // SAFETY: the handle outlives this. Where it can't be released now it is with the end of the thread.
            unsafe { raw::msgq_release(self.queues.at, self.id) };
        }
    }
}
