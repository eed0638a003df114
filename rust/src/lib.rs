//! XSI message queues in one file, between the threads of a process, or between any processes where a server has the file.
//!
//! ```no_run
//! # fn main() -> Result<(), msgq::Error> {
//! let queues = msgq::Queues::open("queues")?;
//! let id = queues.get(msgq::Key::Of(7), msgq::Create::IfMissing, 0o600)?;
//! queues.send(id, 1, b"hello", msgq::Wait::Forever)?;
//! let message = queues.receive(id, 0, msgq::Wait::Forever)?;
//! assert_eq!(message.body, b"hello");
//! queues.close()
//! # }
//! ```
//!
//! What each call is answered stands in docs/QUEUES.md, and so do the limits of its arguments. Of numbers that their types can say and
//! the rules do not know each is refused with `EINVAL`, and so is a path with a zero byte.
//!
//! Each call on a file is refused with `ENOTSUP` in the child of a fork whose parent has opened it. A server answers a child too.
//!
//! A server answers each call also with `ENOTCONN` where there is none any more and the call was not made, and with `ECONNRESET` where it
//! was lost and this is not known; and a signal ends a wait there with `EINTR`.

#[cfg(not(target_pointer_width = "64"))]
compile_error!("the structs of msgq.h are known for targets of 64 bits alone");

mod error;
mod raw;
mod reserved;
mod together;
mod values;

pub use error::Error;
use error::{must, must_or, ENOENT};
pub use reserved::Reserved;
use std::ffi::{c_int, CString};
use std::fmt;
use std::os::unix::ffi::OsStrExt;
use std::path::Path;
use std::ptr;
use std::time::Duration;
pub use together::Unsent;
pub use values::{Change, Create, Info, Key, Message, Wait};

const CREATE: c_int = 0o1000;
const EXCLUSIVE: c_int = 0o2000;
const AGAIN: c_int = 0o100000;
const MAX_BODY: usize = 1024;
const PRIVATE: i64 = -1;
const MODES: u16 = 0o777;

fn c_path(path: &Path) -> Result<CString, Error> {
    CString::new(path.as_os_str().as_bytes())
        .map_err(|_| Error::invalid(&format!("{path:?}: a path has no zero byte")))
}

/// A mode's bits: those beyond them are flags of the call.
fn bits(mode: u16) -> Result<u16, Error> {
    if mode > MODES {
        return Err(Error::invalid(&format!(
            "mode {mode:o}: a mode has nine bits"
        )));
    }
    Ok(mode)
}

/// Makes a file of so many pages of 4,096 bytes, 258 to 65,536, without queues.
///
/// # Errors
/// `EEXIST` where there is one of this name, `EINVAL` for another number of pages or a path with a zero byte, `ENOMEM`, or what the
/// system says.
pub fn create(path: impl AsRef<Path>, pages: u32) -> Result<(), Error> {
    let path = path.as_ref();
    let name = c_path(path)?;
    // SAFETY: the path ends in a zero.
    must(
        unsafe { raw::msgq_create(name.as_ptr(), pages) },
        path.display(),
    )
}

/// A file of queues that is open, or a server of one. Where a file is let go without `close` what was neither saved nor noted is
/// lost.
#[derive(Debug)]
pub struct Queues {
    at: raw::Handle,
    again: c_int,
}

// SAFETY: each function takes the lock of the file, or asks the server on a connection of its thread's own.
unsafe impl Send for Queues {}
unsafe impl Sync for Queues {}

impl Queues {
    /// Opens a file, which is checked whole.
    ///
    /// # Errors
    /// `EBADMSG` and a fault where something is wrong with it, `EBUSY` where a process has it open, `EINVAL` for a path with a zero
    /// byte, `ENOTSUP` where its journal is of another version, `ENOMEM`, or what the system says.
    pub fn open(path: impl AsRef<Path>) -> Result<Queues, Error> {
        let path = path.as_ref();
        let name = c_path(path)?;
        let mut at = ptr::null_mut();
        // SAFETY: the path ends in a zero, and there is room for the pointer.
        must(
            unsafe { raw::msgq_open(name.as_ptr(), &mut at) },
            path.display(),
        )?;
        Ok(Queues { at, again: 0 })
    }

    /// Connects to a server, by the path of its socket.
    ///
    /// # Errors
    /// `ENOENT` or `ECONNREFUSED` where nobody serves, `ETIMEDOUT` or `EPROTO` where who has the socket does not greet as a server does,
    /// `EINVAL` for a path with a zero byte, `ENOMEM`, or what the system says.
    pub fn connect(socket: impl AsRef<Path>) -> Result<Queues, Error> {
        let socket = socket.as_ref();
        let name = c_path(socket)?;
        let mut at = ptr::null_mut();
        // SAFETY: the path ends in a zero, and there is room for the pointer.
        must(
            unsafe { raw::msgq_connect(name.as_ptr(), &mut at) },
            socket.display(),
        )?;
        Ok(Queues { at, again: 0 })
    }

    /// Connects to the server of a file, where it has one, and opens the file else.
    ///
    /// # Errors
    /// Those of `open`, or what the system says of the server's socket.
    pub fn attach(path: impl AsRef<Path>) -> Result<Queues, Error> {
        let path = path.as_ref();
        let name = c_path(path)?;
        let mut at = ptr::null_mut();
        // SAFETY: the path ends in a zero, and there is room for the pointer.
        must(
            unsafe { raw::msgq_attach(name.as_ptr(), &mut at) },
            path.display(),
        )?;
        Ok(Queues { at, again: 0 })
    }

    /// Whether these are a server's.
    pub fn is_served(&self) -> bool {
        // SAFETY: the handle is one.
        unsafe { raw::msgq_is_served(self.at) != 0 }
    }

    /// From here on a send or a receive whose server is lost is made again of the next one, and not told `ECONNRESET`: a message that the
    /// lost one had taken is lost, and one that it had put stands twice.
    pub fn asking_again(mut self) -> Queues {
        self.again = AGAIN;
        self
    }

    /// The same, but waits while another process has the file open, or this one: without end, or for so long at most.
    ///
    /// # Errors
    /// Those of `open`, and `ETIMEDOUT` in the place of `EBUSY`.
    pub fn open_wait(path: impl AsRef<Path>, limit: Option<Duration>) -> Result<Queues, Error> {
        let path = path.as_ref();
        let name = c_path(path)?;
        let mut at = ptr::null_mut();
        let limit = limit.map_or(Wait::Forever, Wait::For).limit();
        let limit = limit.as_ref().map_or(ptr::null(), ptr::from_ref);
        // SAFETY: the path ends in a zero, the limit outlives the call, and there is room for the pointer.
        must(
            unsafe { raw::msgq_open_wait(name.as_ptr(), limit, &mut at) },
            path.display(),
        )?;
        Ok(Queues { at, again: 0 })
    }

    /// The id of a key's queue, or of a new one with this mode.
    ///
    /// # Errors
    /// `ENOENT` where no queue has the key and none is made, `EEXIST` where one has it and a new one is asked for, `ENOSPC` where
    /// there are no more queues or ids, or the file is full (fault 50), `EINVAL` for a mode of more than nine bits, `ENOMEM`.
    pub fn get(&self, key: Key, create: Create, mode: u16) -> Result<u32, Error> {
        let number = match key {
            Key::Private => PRIVATE,
            Key::Of(key) => key.into(),
        };
        let flags = c_int::from(bits(mode)?)
            | match create {
                Create::Never => 0,
                Create::IfMissing => CREATE,
                Create::New => CREATE | EXCLUSIVE,
            };
        let mut id = 0;
        // SAFETY: the file is open, and there is room for the id.
        let told = unsafe { raw::msgq_get(self.at, number, flags, &mut id) };
        match told {
            ENOENT => must_or(told, || format!("{key}: no queue has this key"))?,
            _ => must(told, key)?,
        }
        Ok(id)
    }

    /// Puts a message last on a queue.
    ///
    /// # Errors
    /// `EINVAL` for a type below 1, a body of more than 1,024 bytes or an id that was never given out, `EIDRM` where the queue was
    /// removed, `EACCES` where its mode does not let the caller write, `EAGAIN` where there is no room and it does not wait,
    /// `ETIMEDOUT`, `EINTR` once the file is stopped, `ENOSPC` where it is full (fault 50), `ENOMEM`.
    pub fn send(&self, id: u32, mtype: i64, body: &[u8], wait: Wait) -> Result<(), Error> {
        let limit = wait.limit();
        let limit = limit.as_ref().map_or(ptr::null(), ptr::from_ref);
        // SAFETY: the file is open, and the body and the limit outlive the call.
        let told = unsafe {
            raw::msgq_send(
                self.at,
                id,
                mtype,
                body.as_ptr(),
                body.len(),
                wait.flags() | self.again,
                limit,
            )
        };
        must(told, on(id))
    }

    /// Takes the first message (type 0), the first of a type, or the first of the lowest type up to
    /// -type.
    ///
    /// # Errors
    /// `EINVAL` for an id that was never given out, `EIDRM` where the queue was removed, `EACCES` where its mode does not let the
    /// caller read, `ENOMSG` where there is none and it does not wait, `ETIMEDOUT`, `EINTR` once the file is stopped, `ENOMEM`.
    pub fn receive(&self, id: u32, mtype: i64, wait: Wait) -> Result<Message, Error> {
        let limit = wait.limit();
        let limit = limit.as_ref().map_or(ptr::null(), ptr::from_ref);
        let mut room = [0; MAX_BODY];
        let mut got = raw::Message::default();
        // SAFETY: the file is open, and there is room for what is told.
        let told = unsafe {
            raw::msgq_receive(
                self.at,
                id,
                mtype,
                room.as_mut_ptr(),
                room.len(),
                wait.flags() | self.again,
                limit,
                &mut got,
            )
        };
        must(told, on(id))?;
        Ok(Message::of(&room, &got))
    }

    /// Takes a message as `receive` does, which its server holds until it is dealt with: `Reserved::acknowledge` says so.
    ///
    /// # Errors
    /// Those of `receive`, `ENOSPC` where no more queues are possible, and `ENOTSUP` where the file is opened.
    pub fn reserve(&self, id: u32, mtype: i64, wait: Wait) -> Result<Reserved<'_>, Error> {
        let limit = wait.limit();
        let limit = limit.as_ref().map_or(ptr::null(), ptr::from_ref);
        let mut room = [0; MAX_BODY];
        let mut got = raw::Message::default();
        let mut holding = 0;
        // SAFETY: the handle is one, and there is room for what is told.
        let told = unsafe {
            raw::msgq_reserve(
                self.at,
                id,
                mtype,
                room.as_mut_ptr(),
                room.len(),
                wait.flags(),
                limit,
                &mut got,
                &mut holding,
            )
        };
        must(told, on(id))?;
        Ok(Reserved::new(self, holding, Message::of(&room, &got)))
    }

    /// What is known of a queue.
    ///
    /// # Errors
    /// `EINVAL` for an id that was never given out, `EIDRM` where the queue was removed, `EACCES` where its mode does not let the
    /// caller read.
    pub fn stat(&self, id: u32) -> Result<Info, Error> {
        let mut info = raw::Info::default();
        // SAFETY: the file is open, and there is room for what is told.
        must(unsafe { raw::msgq_stat(self.at, id, &mut info) }, on(id))?;
        Ok(Info {
            id: info.id,
            key: u32::try_from(info.key).map_or(Key::Private, Key::Of),
            qnum: info.qnum,
            cbytes: info.cbytes,
            qbytes: info.qbytes,
            lspid: info.lspid,
            lrpid: info.lrpid,
            stime: info.stime,
            rtime: info.rtime,
            ctime: info.ctime,
            uid: info.uid,
            gid: info.gid,
            cuid: info.cuid,
            cgid: info.cgid,
            mode: info.mode,
        })
    }

    /// Changes `qbytes`, and owner and mode where they are given.
    ///
    /// # Errors
    /// `EINVAL` for `qbytes` above 65,536, a mode of more than nine bits or an id that was never given out, `EIDRM` where the queue
    /// was removed, `EPERM` for who is neither owner, creator nor user 0, and for who raises `qbytes` and is not user 0.
    pub fn set(&self, id: u32, change: &Change) -> Result<(), Error> {
        let change = raw::Change {
            qbytes: change.qbytes,
            uid: change.uid.map_or(-1, i64::from),
            gid: change.gid.map_or(-1, i64::from),
            mode: change.mode.map(bits).transpose()?.map_or(-1, i32::from),
        };
        // SAFETY: the file is open, and the change outlives the call.
        must(unsafe { raw::msgq_set(self.at, id, &change) }, on(id))
    }

    /// Removes a queue and all its messages.
    ///
    /// # Errors
    /// `EINVAL` for an id that was never given out, `EIDRM` where the queue was removed before, `EPERM` for who is neither owner,
    /// creator nor user 0.
    pub fn remove(&self, id: u32) -> Result<(), Error> {
        // SAFETY: the file is open.
        must(unsafe { raw::msgq_remove(self.at, id) }, on(id))
    }

    /// The ids of the queues that are alive, in ascending order. An error, which only a fault of the file is, is the last.
    pub fn ids(&self) -> Ids<'_> {
        Ids {
            queues: self,
            after: Some(0),
        }
    }

    /// Writes what has changed to the file.
    ///
    /// # Errors
    /// What the system says, and `EIO` from then on: the file is to be opened anew.
    pub fn save(&self) -> Result<(), Error> {
        // SAFETY: the file is open.
        must(unsafe { raw::msgq_save(self.at) }, "a save")
    }

    /// Brings what has changed to where it outlasts a crash, as `save` does, but notes the calls in the journal of the file: for
    /// one wait for the disk in the place of three. Who reads the file sees them once it is saved or closed.
    ///
    /// # Errors
    /// Those of `save`.
    pub fn note(&self) -> Result<(), Error> {
        // SAFETY: the file is open.
        must(unsafe { raw::msgq_note(self.at) }, "a note")
    }

    /// From here on a call that would wait is told `EINTR`.
    ///
    /// # Errors
    /// `ENOTSUP` for a server.
    pub fn stop(&self) -> Result<(), Error> {
        // SAFETY: the file is open.
        must(unsafe { raw::msgq_stop(self.at) }, "a stop")
    }

    /// Saves, and lets go of the file. Where it can't be saved what has changed is lost. Of a server it lets go without.
    ///
    /// # Errors
    /// Those of `save`.
    pub fn close(self) -> Result<(), Error> {
        // SAFETY: the file is open, and nobody else has it: so no call waits.
        must(unsafe { raw::msgq_close(self.at) }, "a save")?;
        // It is gone.
        std::mem::forget(self);
        Ok(())
    }
}

impl Drop for Queues {
    fn drop(&mut self) {
        // SAFETY: the file is open, and nobody else has it: so no call waits.
        unsafe { raw::msgq_abandon(self.at) };
    }
}

/// The queue of an id, in words.
fn on(id: u32) -> impl fmt::Display {
    format!("queue {id}")
}

/// The ids of queues, in ascending order.
#[derive(Debug)]
pub struct Ids<'a> {
    queues: &'a Queues,
    after: Option<u32>,
}

impl Iterator for Ids<'_> {
    type Item = Result<u32, Error>;

    fn next(&mut self) -> Option<Result<u32, Error>> {
        let after = self.after.take()?;
        let mut id = 0;
        // SAFETY: the file is open, and there is room for the id.
        let told = unsafe { raw::msgq_list(self.queues.at, after, &mut id) };
        match must(told, "the next queue") {
            Ok(()) => {
                self.after = Some(id);
                Some(Ok(id))
            }
            Err(error) if error.errno == ENOENT => None,
            Err(error) => Some(Err(error)),
        }
    }
}
