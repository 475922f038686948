//! A camera, an encoder and a display in processes of their own share buffers through sysmemd. The camera writes
//! frames and passes a handle on each to the two others, who check every byte. The display is killed with a frame in
//! its hands: the app learns it, and the camera gets the buffer back. Then the encoder is killed, and all learn who
//! failed.
//!
//!   three ROLE PATH     is what the app starts, with a socket to itself as standard input; without words it is the
//!                       app. The daemon is that of $SYSMEM_SOCKET.
use std::error::Error as StdError;
use std::io::{Read, Write};
use std::os::unix::io::{AsFd, OwnedFd};
use std::os::unix::net::{UnixListener, UnixStream};
use std::path::Path;
use std::process::{Child, Command};
use std::sync::atomic::{AtomicU8, Ordering::Relaxed};
use std::time::Duration;
use sysmem_remote::*;

type Fallible<T> = Result<T, Box<dyn StdError>>;
const LONG: Duration = Duration::from_secs(60);

/// A frame begins with its number, and each other byte follows from it.
fn write(to: &[AtomicU8], number: u32) {
    let (first, others) = to.split_at(4);
    first.iter().zip(number.to_ne_bytes()).for_each(|(byte, is)| byte.store(is, Relaxed));
    others.iter().for_each(|byte| byte.store((number % 251) as u8, Relaxed));
}

fn read(from: &[AtomicU8]) -> u32 {
    let mut number = [0; 4];
    number.iter_mut().zip(from).for_each(|(is, byte)| *is = byte.load(Relaxed));
    let number = u32::from_ne_bytes(number);
    let is_whole = from[4..].iter().all(|byte| byte.load(Relaxed) == (number % 251) as u8);
    assert!(is_whole, "frame {number} is torn");
    number
}

/// Takes the token that the app gives, asks for buffers, and waits until they are there.
fn take_part(client: &Client, app: &UnixStream, camping: u8, size: u32) -> Fallible<Collection> {
    let mine = client.collect_for(app, LONG)?.unwrap().token().unwrap().bind()?;
    mine.set_constraints(Constraints { camping, at_least: 0, size })?;
    mine.wait_allocated(LONG)?.unwrap();
    Ok(mine)
}

/// Whether the app says something. An app that is gone says nothing.
fn says(app: &mut UnixStream) -> bool {
    app.read(&mut [0]).map_or(false, |count| count == 1)
}

/// How many of the buffers come back.
fn come_back(all: &[Handle]) -> usize {
    all.iter().filter(|one| one.wait_idle(1, LONG) == Ok(Waited::Done(()))).count()
}

fn why(error: Error) -> String {
    match error {
        Error::PeerClosed { cause, label, .. } => format!("{cause} by {}", label.unwrap_or_default()),
        other => other.to_string(),
    }
}

fn camera(client: Client, mut app: UnixStream, path: &Path) -> Fallible<()> {
    let door = UnixListener::bind(path)?;
    app.write_all(b"r")?; // those who watch may come now
    let mine = take_part(&client, &app, 3, 30_000)?;
    let watchers = [door.accept()?.0, door.accept()?.0];
    let all = mine.take()?.unwrap();
    println!("camera: {} buffers", all.len());
    app.set_nonblocking(true)?;
    for number in 1.. {
        let frame = &all[number as usize % all.len()];
        assert!(frame.wait_idle(1, LONG)?.is_done());
        write(frame.bytes()?, number);
        for to in &watchers {
            drop(frame.duplicate()?.give(to)); // refused once that process is gone
        }
        if says(&mut app) {
            println!("camera: {} buffers came back", come_back(&all));
            app.write_all(b"d")?;
        }
        if let Err(error) = mine.sync() {
            println!("camera: closed {}", why(error));
            break;
        }
    }
    println!("camera: {} buffers are mine alone", come_back(&all));
    Ok(())
}

/// Checks frames. With the 20th in its hands, or with one after the app said so, it tells the app, and waits to be killed.
fn watch(client: Client, mut app: UnixStream, path: &Path, is_display: bool) -> Fallible<()> {
    let frames = UnixStream::connect(path)?;
    let _mine = take_part(&client, &app, 1, 4096)?;
    app.set_nonblocking(true)?;
    for number in 1.. {
        let frame = client.collect_for(&frames, LONG)?.unwrap().handle().unwrap();
        assert_eq!(read(frame.bytes()?), number, "a frame is missing");
        if if is_display { number == 20 } else { says(&mut app) } {
            app.write_all(b"h")?;
            app.set_nonblocking(false)?;
            says(&mut app);
            break;
        }
    }
    Ok(())
}

fn start(role: &str, path: &Path) -> Fallible<(Child, UnixStream)> {
    let (mine, theirs) = UnixStream::pair()?;
    let mut command = Command::new(std::env::current_exe()?);
    let child = command.arg(role).arg(path).stdin(OwnedFd::from(theirs)).spawn()?;
    Ok((child, mine))
}

fn app(client: Client, service: Service, path: &Path) -> Fallible<()> {
    let root = client.open_root("app")?;
    let shown = root.duplicate("display")?;
    shown.set_dispensable()?;
    let gone = shown.track_node()?;
    let (mut camera, mut to_camera) = start("camera", path)?;
    to_camera.read_exact(&mut [0])?;
    let (mut encoder, mut to_encoder) = start("encoder", path)?;
    let (mut display, mut to_display) = start("display", path)?;
    root.duplicate("camera")?.give(&to_camera)?;
    root.duplicate("encoder")?.give(&to_encoder)?;
    shown.give(&to_display)?;
    let mine = root.bind()?;
    mine.set_constraints(Constraints { camping: 0, at_least: 0, size: 1 })?;

    to_display.read_exact(&mut [0])?; // it has its 20th frame
    display.kill()?;
    println!("app: the display is {}", if gone.wait_for(LONG)?.is_done() { "gone" } else { "here" });
    println!("app: the others {}", if mine.sync().is_ok() { "go on" } else { "failed with it" });
    to_camera.write_all(b"w")?; // whether all buffers come back
    to_camera.read_exact(&mut [0])?;
    to_encoder.write_all(b"s")?;
    to_encoder.read_exact(&mut [0])?; // it has a frame
    let failed = mine.track_node()?; // while the node is there
    encoder.kill()?;
    failed.wait_for(LONG)?.unwrap();
    println!("app: closed {}", why(mine.sync().unwrap_err()));
    for child in [&mut camera, &mut encoder, &mut display] {
        child.wait()?;
    }
    mine.close();
    let mut now = service.status()?;
    while now.free_pages != now.pages || now.memories != 0 {
        std::thread::sleep(Duration::from_millis(2));
        now = service.status()?;
    }
    println!("app: {} live nodes, {} buffers held, {} memories", now.live, now.held, now.memories);
    Ok(())
}

fn main() -> Fallible<()> {
    let words: Vec<_> = std::env::args_os().skip(1).collect();
    let role = words.first().and_then(|word| word.to_str()).unwrap_or("app");
    let service = Service::open(Options::default())?;
    let client = service.join_as(role)?;
    if words.len() < 2 {
        let path = std::env::temp_dir().join(format!("three-{}", std::process::id()));
        let done = app(client, service, &path);
        let _ = std::fs::remove_file(&path);
        return done;
    }
    let (path, to_app) = (Path::new(&words[1]), std::io::stdin().as_fd().try_clone_to_owned()?);
    match role {
        "camera" => camera(client, to_app.into(), path),
        _ => watch(client, to_app.into(), path, role == "display"),
    }
}
