//! The functions of `c/msgq.h`.

use std::ffi::{c_char, c_int, c_long, c_uint, c_void};

#[repr(C)]
pub struct Timespec {
    pub seconds: i64,
    pub nanoseconds: c_long,
}

#[repr(C)]
#[derive(Default)]
pub struct Message {
    pub serial: u64,
    pub mtype: i64,
    pub length: usize,
    pub sender: u32,
}

#[repr(C)]
pub struct Outgoing {
    pub mtype: i64,
    pub body: *const u8,
    pub length: usize,
    pub serial: u64,
}

#[repr(C)]
#[derive(Default)]
pub struct Info {
    pub stime: u64,
    pub rtime: u64,
    pub ctime: u64,
    pub id: u32,
    pub key: i64,
    pub qnum: u32,
    pub cbytes: u32,
    pub qbytes: u32,
    pub lspid: u32,
    pub lrpid: u32,
    pub uid: u32,
    pub gid: u32,
    pub cuid: u32,
    pub cgid: u32,
    pub mode: u16,
}

#[repr(C)]
pub struct Change {
    pub qbytes: u32,
    pub uid: i64,
    pub gid: i64,
    pub mode: i32,
}

pub type Handle = *mut c_void;

extern "C" {
    pub fn msgq_create(path: *const c_char, pages: u32) -> c_int;
    pub fn msgq_open(path: *const c_char, queues: *mut Handle) -> c_int;
    pub fn msgq_open_wait(
        path: *const c_char,
        limit: *const Timespec,
        queues: *mut Handle,
    ) -> c_int;
    pub fn msgq_connect(socket: *const c_char, queues: *mut Handle) -> c_int;
    pub fn msgq_attach(path: *const c_char, queues: *mut Handle) -> c_int;
    pub fn msgq_is_served(queues: Handle) -> c_int;
    pub fn msgq_get(queues: Handle, key: i64, flags: c_int, id: *mut u32) -> c_int;
    pub fn msgq_send(
        queues: Handle,
        id: u32,
        mtype: i64,
        body: *const u8,
        length: usize,
        flags: c_int,
        limit: *const Timespec,
    ) -> c_int;
    pub fn msgq_send_all(queues: Handle, id: u32, messages: *mut Outgoing, count: usize) -> c_int;
    pub fn msgq_receive(
        queues: Handle,
        id: u32,
        mtype: i64,
        room: *mut u8,
        size: usize,
        flags: c_int,
        limit: *const Timespec,
        got: *mut Message,
    ) -> c_int;
    pub fn msgq_reserve(
        queues: Handle,
        id: u32,
        mtype: i64,
        room: *mut u8,
        size: usize,
        flags: c_int,
        limit: *const Timespec,
        got: *mut Message,
        holding: *mut u32,
    ) -> c_int;
    pub fn msgq_acknowledge(queues: Handle, holding: u32) -> c_int;
    pub fn msgq_release(queues: Handle, holding: u32) -> c_int;
    pub fn msgq_stat(queues: Handle, id: u32, info: *mut Info) -> c_int;
    pub fn msgq_set(queues: Handle, id: u32, change: *const Change) -> c_int;
    pub fn msgq_remove(queues: Handle, id: u32) -> c_int;
    pub fn msgq_list(queues: Handle, after: u32, id: *mut u32) -> c_int;
    pub fn msgq_save(queues: Handle) -> c_int;
    pub fn msgq_note(queues: Handle) -> c_int;
    pub fn msgq_stop(queues: Handle) -> c_int;
    pub fn msgq_close(queues: Handle) -> c_int;
    pub fn msgq_abandon(queues: Handle) -> c_int;
    pub fn msgq_last_fault() -> c_uint;
    #[cfg(has_reason)]
    pub fn msgq_reason() -> *const c_char;
}
