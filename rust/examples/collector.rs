//! A collector of logs: four sources send lines, urgent ones first, and one thread writes them out. What is left when it is
//! killed stands in the file.
//!
//!     cargo run --example collector -- logs.queues

use msgq::{Create, Error, Key, Queues, Wait};
use std::path::Path;
use std::thread;

const KEY: u32 = 2;
const ERROR: i64 = 1;
const NOTICE: i64 = 2;
const END: i64 = 3;

fn main() -> Result<(), Error> {
    let Some(path) = std::env::args().nth(1) else {
        eprintln!("usage: collector FILE");
        std::process::exit(2);
    };
    if !Path::new(&path).exists() {
        msgq::create(&path, 352)?;
    }
    let queues = Queues::open(&path)?;
    let id = queues.get(Key::Of(KEY), Create::IfMissing, 0o600)?;
    let (queues, sources) = (&queues, 4);
    thread::scope(|threads| {
        for source in 1..=sources {
            threads.spawn(move || tell(queues, id, source));
        }
        collect(queues, id, sources)
    })?;
    queues.save()
}

/// Writes out what the sources tell, until the last of them has ended.
fn collect(queues: &Queues, id: u32, sources: u32) -> Result<(), Error> {
    let mut ended = 0;
    while ended < sources {
        let message = queues.receive(id, -END, Wait::Forever)?;
        if message.mtype == END {
            ended += 1;
        } else {
            println!("{}", String::from_utf8_lossy(&message.body));
        }
    }
    Ok(())
}

/// A source tells what it has to say.
fn tell(queues: &Queues, id: u32, source: u32) -> Result<(), Error> {
    let lines = [
        (NOTICE, format!("source {source}: it is up")),
        (ERROR, format!("source {source}: it has no ink")),
    ];
    for (kind, line) in &lines {
        queues.send(id, *kind, line.as_bytes(), Wait::Forever)?;
    }
    queues.send(id, END, b"", Wait::Forever)
}
