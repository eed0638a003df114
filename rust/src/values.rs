//! What calls are given and tell.

use crate::raw;
use std::ffi::c_int;
use std::fmt;
use std::time::Duration;

const NOWAIT: c_int = 0o4000;

/// The key of a queue.
#[derive(Clone, Copy, Debug, PartialEq, Eq)]
pub enum Key {
    /// None leads to it (`IPC_PRIVATE`).
    Private,
    /// This one.
    Of(u32),
}

impl fmt::Display for Key {
    fn fmt(&self, to: &mut fmt::Formatter<'_>) -> fmt::Result {
        match self {
            Key::Private => write!(to, "a private queue"),
            Key::Of(key) => write!(to, "key {key}"),
        }
    }
}

/// Whether a queue is made.
#[derive(Clone, Copy, Debug, PartialEq, Eq)]
pub enum Create {
    /// Where the key has none there is none; a private one is made all the same.
    Never,
    /// `IPC_CREAT`.
    IfMissing,
    /// `IPC_CREAT` and `IPC_EXCL`.
    New,
}

/// For how long a call waits.
#[derive(Clone, Copy, Debug, PartialEq, Eq)]
pub enum Wait {
    /// Not at all (`IPC_NOWAIT`).
    Never,
    /// For so long at most; then `ETIMEDOUT`.
    For(Duration),
    /// Until it is done, or the file is stopped.
    Forever,
}

impl Wait {
    pub(crate) fn flags(self) -> c_int {
        match self {
            Wait::Never => NOWAIT,
            Wait::For(_) | Wait::Forever => 0,
        }
    }

    pub(crate) fn limit(self) -> Option<raw::Timespec> {
        match self {
            Wait::For(time) => Some(raw::Timespec {
                seconds: time.as_secs().try_into().unwrap_or(i64::MAX),
                nanoseconds: time.subsec_nanos().into(),
            }),
            Wait::Never | Wait::Forever => None,
        }
    }
}

/// A message that was received.
#[derive(Clone, Debug, PartialEq, Eq)]
pub struct Message {
    /// 0 to 1,024 bytes.
    pub body: Vec<u8>,
    /// 1 or more.
    pub mtype: i64,
    /// The process that sent it.
    pub sender: u32,
    /// Its number on its queue.
    pub serial: u64,
}

impl Message {
    /// One whose bytes stand at the front of a room.
    pub(crate) fn of(room: &[u8], got: &raw::Message) -> Message {
        Message {
            body: room[..got.length].to_vec(),
            mtype: got.mtype,
            sender: got.sender,
            serial: got.serial,
        }
    }
}

/// What is known of a queue (`struct msqid_ds`).
#[derive(Clone, Copy, Debug, PartialEq, Eq)]
pub struct Info {
    /// From 1 on, and never given again.
    pub id: u32,
    pub key: Key,
    /// The messages that it has.
    pub qnum: u32,
    /// The bytes of their bodies together.
    pub cbytes: u32,
    /// As many they may be.
    pub qbytes: u32,
    /// The process that sent last, 0 before the first.
    pub lspid: u32,
    /// The process that received last, 0 before the first.
    pub lrpid: u32,
    /// When that sent, in seconds; 0 before.
    pub stime: u64,
    /// When that received, in seconds; 0 before.
    pub rtime: u64,
    /// When it was made or set last, in seconds.
    pub ctime: u64,
    /// The owner's user.
    pub uid: u32,
    /// The owner's group.
    pub gid: u32,
    /// The creator's user.
    pub cuid: u32,
    /// The creator's group.
    pub cgid: u32,
    /// Nine bits.
    pub mode: u16,
}

/// What is set of a queue.
#[derive(Clone, Copy, Debug, PartialEq, Eq)]
pub struct Change {
    /// Up to 65,536.
    pub qbytes: u32,
    pub uid: Option<u32>,
    pub gid: Option<u32>,
    /// Nine bits.
    pub mode: Option<u16>,
}
