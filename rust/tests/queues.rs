//! What the crate does beside the library.

use msgq::{Change, Create, Error, Key, Queues, Wait};
use std::fs;
use std::path::{Path, PathBuf};
use std::process::Command;
use std::time::Duration;

struct NewFile(PathBuf);

impl NewFile {
    fn new(name: &str) -> NewFile {
        let path = std::env::temp_dir().join(format!("msgq-{}-{name}", std::process::id()));
        msgq::create(&path, 352).unwrap();
        NewFile(path)
    }
}

impl Drop for NewFile {
    fn drop(&mut self) {
        let mut journal = self.0.clone().into_os_string();
        journal.push(".journal");
        let _ = fs::remove_file(&self.0);
        let _ = fs::remove_file(journal);
    }
}

fn errno<T: std::fmt::Debug>(told: Result<T, Error>) -> i32 {
    told.unwrap_err().errno
}

const ENOENT: i32 = 2;
const LONG_BODY: [u8; 1025] = [0; 1025];
const EINVAL: i32 = 22;

#[test]
fn a_message_is_kept() {
    let file = NewFile::new("kept");
    let queues = Queues::open(&file.0).unwrap();
    let id = queues.get(Key::Of(7), Create::New, 0o600).unwrap();
    queues.send(id, 3, b"one\0two", Wait::Never).unwrap();
    queues.close().unwrap();
    let queues = Queues::open(&file.0).unwrap();
    assert_eq!(queues.stat(id).unwrap().qnum, 1);
    let message = queues.receive(id, -4, Wait::Forever).unwrap();
    assert_eq!(
        (message.body.as_slice(), message.mtype, message.serial),
        (&b"one\0two"[..], 3, 1)
    );
}

#[test]
fn what_is_noted_is_kept() {
    let file = NewFile::new("noted");
    let queues = Queues::open(&file.0).unwrap();
    let id = queues.get(Key::Of(7), Create::New, 0o600).unwrap();
    queues.send(id, 3, b"one", Wait::Never).unwrap();
    queues.note().unwrap();
    queues.send(id, 3, b"two", Wait::Never).unwrap();
    drop(queues);
    let queues = Queues::open(&file.0).unwrap();
    assert_eq!(queues.stat(id).unwrap().qnum, 1);
    assert_eq!(queues.receive(id, 0, Wait::Never).unwrap().body, b"one");
}

#[test]
fn messages_are_put_at_once() {
    let file = NewFile::new("at-once");
    let queues = Queues::open(&file.0).unwrap();
    let id = queues.get(Key::Private, Create::Never, 0o600).unwrap();
    let three: [(i64, &[u8]); 3] = [(2, b"one"), (1, b""), (3, b"three")];
    assert_eq!(queues.send_all(id, &three).unwrap(), [1, 2, 3]);
    assert_eq!(queues.receive(id, -2, Wait::Never).unwrap().serial, 2);
    let change = Change {
        qbytes: 12,
        uid: None,
        gid: None,
        mode: None,
    };
    queues.set(id, &change).unwrap();
    let unsent = queues.send_all(id, &three).unwrap_err();
    assert_eq!(unsent.serials, [Some(4), Some(5), None]);
    assert_eq!(unsent.error.name(), Some("EAGAIN"));
    assert!(unsent.to_string().ends_with("(2 of 3 messages were put)"));
    assert!(queues.send_all(id, &[]).unwrap().is_empty());
}

#[test]
fn refusals_are_told() {
    let file = NewFile::new("refusals");
    let queues = Queues::open(&file.0).unwrap();
    assert_eq!(errno(queues.get(Key::Of(7), Create::Never, 0)), ENOENT);
    let id = queues.get(Key::Private, Create::Never, 0o600).unwrap();
    let soon = Wait::For(Duration::from_millis(10));
    assert_eq!(
        queues.receive(id, 0, soon).unwrap_err().name(),
        Some("ETIMEDOUT")
    );
    let change = Change {
        qbytes: 2,
        uid: None,
        gid: None,
        mode: Some(0o640),
    };
    queues.set(id, &change).unwrap();
    let info = queues.stat(id).unwrap();
    assert_eq!((info.qbytes, info.mode, info.key), (2, 0o640, Key::Private));
    assert_eq!(
        queues
            .send(id, 1, b"three", Wait::Never)
            .unwrap_err()
            .name(),
        Some("EAGAIN")
    );
    assert_eq!(queues.ids().collect::<Result<Vec<_>, _>>().unwrap(), [id]);
    queues.remove(id).unwrap();
    assert_eq!(queues.ids().count(), 0);
}

#[test]
fn arguments_at_their_bounds_and_beyond() {
    let file = NewFile::new("arguments");
    let queues = Queues::open(&file.0).unwrap();
    // Bits beyond the nine of a mode ask for no queue.
    for mode in [0o1000, 0o1600, 0o3600, u16::MAX] {
        assert_eq!(
            errno(queues.get(Key::Of(7), Create::Never, mode)),
            EINVAL,
            "{mode:o}"
        );
    }
    assert_eq!(queues.ids().count(), 0);
    for key in [0, u32::MAX] {
        let id = queues.get(Key::Of(key), Create::New, 0o777).unwrap();
        assert_eq!(
            (queues.stat(id).unwrap().key, queues.stat(id).unwrap().mode),
            (Key::Of(key), 0o777)
        );
    }
    let id = queues.get(Key::Private, Create::Never, 0o600).unwrap();
    for other in [0, id + 1, u32::MAX - 1, u32::MAX] {
        assert_eq!(errno(queues.stat(other)), EINVAL, "{other}");
    }
    for mtype in [0, -1, i64::MIN] {
        assert_eq!(
            errno(queues.send(id, mtype, b"", Wait::Never)),
            EINVAL,
            "{mtype}"
        );
    }
    assert_eq!(errno(queues.send(id, 1, &LONG_BODY, Wait::Never)), EINVAL);
    queues
        .send(id, i64::MAX, &LONG_BODY[..1024], Wait::For(Duration::MAX))
        .unwrap();
    let message = queues
        .receive(id, i64::MIN, Wait::For(Duration::MAX))
        .unwrap();
    assert_eq!((message.mtype, message.body.len()), (i64::MAX, 1024));
    let change = |qbytes, uid, mode| {
        queues.set(
            id,
            &Change {
                qbytes,
                uid,
                gid: uid,
                mode,
            },
        )
    };
    assert_eq!(errno(change(65_537, None, None)), EINVAL);
    assert_eq!(errno(change(9, Some(1), Some(0o1000))), EINVAL);
    assert_eq!(
        (
            queues.stat(id).unwrap().qbytes,
            queues.stat(id).unwrap().uid == 1
        ),
        (16_384, false)
    );
    for pages in [0, 257, 65_537, u32::MAX] {
        assert_eq!(
            errno(msgq::create(file.0.with_extension("other"), pages)),
            EINVAL,
            "{pages}"
        );
    }
}

#[test]
fn a_path_with_a_zero_byte_is_refused() {
    let path = std::env::temp_dir().join(format!("msgq-{}-zero\0behind", std::process::id()));
    assert_eq!(errno(msgq::create(&path, 352)), EINVAL);
    assert_eq!(errno(Queues::open(&path)), EINVAL);
    assert!(msgq::create(&path, 352)
        .unwrap_err()
        .to_string()
        .contains("zero byte"));
}

#[test]
fn errors_say_what_and_why() {
    let file = NewFile::new("says");
    let queues = Queues::open(&file.0).unwrap();
    let missing = queues.get(Key::Of(77), Create::Never, 0).unwrap_err();
    for part in ["77: ", "no queue has this key", "ENOENT", "errno 2"] {
        assert!(missing.to_string().contains(part), "{missing}");
    }
    let unknown = queues.stat(9).unwrap_err().to_string();
    for part in ["queue ", "9: ", "EINVAL", "errno 22"] {
        assert!(unknown.contains(part), "{unknown}");
    }
    queues.close().unwrap();
    fs::OpenOptions::new()
        .write(true)
        .open(&file.0)
        .unwrap()
        .set_len(4096)
        .unwrap();
    let cut = Queues::open(&file.0).unwrap_err();
    assert_eq!((cut.name(), cut.fault), (Some("EBADMSG"), Some(22)));
    for part in [file.0.to_str().unwrap(), "EBADMSG", "errno 74", "fault 22"] {
        assert!(cut.to_string().contains(part), "{cut}");
    }
    let text = cut.to_string();
    let behind = std::io::Error::from(cut);
    assert_eq!(behind.to_string(), text);
    assert_eq!(
        behind
            .get_ref()
            .and_then(|it| it.downcast_ref::<Error>())
            .map(|it| it.errno),
        Some(74)
    );
}

#[test]
fn a_receiver_in_another_thread_is_woken() {
    let file = NewFile::new("woken");
    let queues = Queues::open(&file.0).unwrap();
    let id = queues.get(Key::Private, Create::Never, 0o600).unwrap();
    std::thread::scope(|threads| {
        let receiver = threads.spawn(|| queues.receive(id, 0, Wait::Forever).unwrap().body);
        queues.send(id, 1, b"here", Wait::Never).unwrap();
        assert_eq!(receiver.join().unwrap(), b"here");
    });
}

#[test]
fn the_version_is_that_of_the_manual() {
    let manual =
        fs::read_to_string(Path::new(env!("CARGO_MANIFEST_DIR")).join("../man/msgq.3")).unwrap();
    let head = manual.lines().next().unwrap();
    assert!(
        head.contains(&format!("\"msgq {}\"", env!("CARGO_PKG_VERSION"))),
        "{head}"
    );
}

#[test]
fn a_missing_archive_is_named() {
    let room = std::env::temp_dir().join(format!("msgq-{}-build", std::process::id()));
    fs::create_dir(&room).unwrap();
    let told = Command::new(env!("CARGO"))
        .args(["build", "--offline", "--quiet", "--manifest-path"])
        .arg(Path::new(env!("CARGO_MANIFEST_DIR")).join("Cargo.toml"))
        .env("MSGQ_LIB", &room)
        .env("CARGO_TARGET_DIR", room.join("target"))
        .output()
        .unwrap();
    let said = String::from_utf8_lossy(&told.stderr).into_owned();
    fs::remove_dir_all(&room).unwrap();
    assert!(!told.status.success());
    for part in ["libmsgq.a", "run c/build", "MSGQ_LIB"] {
        assert!(said.contains(part), "{said}");
    }
}

#[test]
fn a_file_is_opened_in_its_turn() {
    let file = NewFile::new("turn");
    let queues = Queues::open(&file.0).unwrap();
    let soon = Some(Duration::from_millis(30));
    let refused = Queues::open_wait(&file.0, soon).unwrap_err();
    assert_eq!(refused.name(), Some("ETIMEDOUT"));
    assert!(refused.to_string().contains("it is open in this process"));
    let path = file.0.clone();
    let waiter = std::thread::spawn(move || Queues::open_wait(path, None).unwrap().stat(1).is_ok());
    queues.get(Key::Of(7), Create::New, 0o600).unwrap();
    queues.close().unwrap();
    assert!(waiter.join().unwrap());
}
