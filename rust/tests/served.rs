//! What the crate does at a server: `MSGQ_SERVE` names the program that serves. Without it there is nothing to try.

use msgq::{Create, Error, Key, Queues, Wait};
use std::io::{BufRead, BufReader};
use std::path::{Path, PathBuf};
use std::process::{Child, Command, Stdio};
use std::thread;
use std::time::Duration;

/// A server of a new file.
struct Server {
    child: Child,
    folder: PathBuf,
}

impl Server {
    fn new() -> Option<Server> {
        let program = std::env::var_os("MSGQ_SERVE")?;
        let folder = std::env::temp_dir().join(format!("msgq-{}-served", std::process::id()));
        std::fs::create_dir(&folder).unwrap();
        msgq::create(folder.join("queues"), 300).unwrap();
        let mut child = Command::new(program)
            .arg("serve")
            .arg(folder.join("queues"))
            .stdout(Stdio::piped())
            .spawn()
            .unwrap();
        let mut said = String::new();
        BufReader::new(child.stdout.take().unwrap())
            .read_line(&mut said)
            .unwrap();
        assert!(said.starts_with("serving "), "{said}");
        Some(Server { child, folder })
    }

    fn path(&self) -> PathBuf {
        self.folder.join("queues")
    }
}

impl Drop for Server {
    fn drop(&mut self) {
        let _ = Command::new("kill")
            .arg(self.child.id().to_string())
            .status();
        let _ = self.child.wait();
        let _ = std::fs::remove_dir_all(&self.folder);
    }
}

fn name<T: std::fmt::Debug>(told: Result<T, Error>) -> Option<&'static str> {
    told.unwrap_err().name()
}

const SOON: Wait = Wait::For(Duration::from_millis(20));

fn calls(queues: &Queues, id: u32) {
    queues.send(id, 3, b"one\0two", Wait::Never).unwrap();
    let message = queues.receive(id, -4, Wait::Forever).unwrap();
    assert_eq!(
        (message.body.as_slice(), message.mtype),
        (&b"one\0two"[..], 3)
    );
    assert_eq!(message.sender, std::process::id());
    assert_eq!(name(queues.receive(id, 0, Wait::Never)), Some("ENOMSG"));
    assert_eq!(name(queues.receive(id, 0, SOON)), Some("ETIMEDOUT"));
    let many: Vec<(i64, &[u8])> = vec![(5, b"y"); 70];
    let serials: Vec<u64> = (2..72).collect();
    assert_eq!(queues.send_all(id, &many).unwrap(), serials);
    while queues.receive(id, 5, Wait::Never).is_ok() {}
    assert_eq!(name(queues.stop()), Some("ENOTSUP"));
    assert_eq!(queues.ids().collect::<Result<Vec<_>, _>>().unwrap(), [id]);
    queues.save().unwrap();
}

fn reservations(queues: &Queues, id: u32) {
    queues.send(id, 1, b"job", Wait::Never).unwrap();
    let job = queues.reserve(id, 0, Wait::Forever).unwrap();
    assert_eq!(job.body, b"job");
    assert_eq!(name(queues.reserve(id, 0, Wait::Never)), Some("ENOMSG"));
    drop(job);
    queues.reserve(id, 0, SOON).unwrap().release().unwrap();
    let job = queues.reserve(id, 0, SOON).unwrap();
    let holding = job.id();
    job.acknowledge().unwrap();
    assert_eq!(name(queues.stat(holding)), Some("EIDRM"));
    assert_eq!(name(queues.reserve(id, 0, SOON)), Some("ETIMEDOUT"));
}

/// Threads share a handle; what one that ends has in hand goes back.
fn threads(queues: &Queues, id: u32) {
    thread::scope(|all| {
        for mtype in 1..5 {
            all.spawn(move || {
                for _ in 0..50 {
                    queues.send(id, mtype, b"x", Wait::Forever).unwrap();
                    queues.receive(id, mtype, Wait::Forever).unwrap();
                }
            });
        }
    });
    queues.send(id, 9, b"job", Wait::Never).unwrap();
    thread::scope(|all| {
        all.spawn(|| std::mem::forget(queues.reserve(id, 9, Wait::Forever).unwrap()));
    });
    let job = queues.reserve(id, 9, Wait::Forever).unwrap();
    job.acknowledge().unwrap();
}

#[test]
fn a_server_answers() {
    assert_eq!(name(Queues::connect("/nothing.here")), Some("ENOENT"));
    let Some(server) = Server::new() else { return };
    let socket = format!("{}.socket", server.path().display());
    let queues = Queues::connect(Path::new(&socket)).unwrap().asking_again();
    assert!(queues.is_served());
    let id = queues.get(Key::Of(7), Create::New, 0o600).unwrap();
    calls(&queues, id);
    queues.close().unwrap();
    let queues = Queues::attach(server.path()).unwrap();
    assert!(queues.is_served());
    reservations(&queues, id);
    threads(&queues, id);
}

#[test]
fn a_file_without_a_server_is_opened() {
    let path = std::env::temp_dir().join(format!("msgq-{}-attached", std::process::id()));
    msgq::create(&path, 300).unwrap();
    let queues = Queues::attach(&path).unwrap();
    assert!(!queues.is_served());
    assert_eq!(name(queues.reserve(1, 0, Wait::Never)), Some("ENOTSUP"));
    queues.close().unwrap();
    std::fs::remove_file(&path).unwrap();
    let _ = std::fs::remove_file(format!("{}.journal", path.display()));
}
