//! A camera, an encoder and a display, each in a thread of its own with one descriptor, pass real frames
//! on: the camera writes a buffer, and gives a handle on it to each of the others; they check every byte,
//! and close the handle. The camera writes a buffer again as soon as it has the only handle. The display
//! crashes with a frame in its hands, and is started again.
use std::os::raw::{c_int, c_short, c_ulong};
use std::os::unix::io::AsRawFd;
use std::sync::atomic::{AtomicU32, AtomicU64, Ordering::*};
use std::thread;
use std::time::Duration;
use sysmem::*;

const SIZE: u32 = 30_000;
const LONG: Duration = Duration::from_secs(20);
/// The display of the moment.
static SCREEN: AtomicU64 = AtomicU64::new(0);
/// The number of the last frame.
static LAST: AtomicU32 = AtomicU32::new(u32::MAX);

#[repr(C)]
struct PollFd(c_int, c_short, c_short);
extern "C" {
    fn poll(all: *mut PollFd, count: c_ulong, time: c_int) -> c_int;
}

/// Sleeps until something happens to this client, and says what.
fn wait_for(client: &Client) -> Pending {
    let fd = client.fd().unwrap();
    let mut one = PollFd(fd.as_raw_fd(), 1, 0); // and sockets, timers, ..
    assert_eq!(unsafe { poll(&mut one, 1, 20_000) }, 1, "{client:?} waits in vain");
    client.pending()
}

fn take_part(client: &Client, camping: u8, size: u32) -> Result<Collection, Error> {
    while wait_for(client).parcels == 0 {}
    let mine = client.collect()?.unwrap().token().unwrap().bind()?;
    mine.set_constraints(Constraints { camping, at_least: 0, size })?;
    while wait_for(client).allocated.is_empty() {}
    Ok(mine)
}

/// A frame begins with its number, and each other byte follows from it.
fn write(memory: &Memory, to: &Handle, number: u32) {
    assert_eq!(to.open_handles(), Ok(1), "a buffer is written while others read it");
    // SAFETY: the camera has the only handle, and writes in one thread.
    let bytes = unsafe { memory.slice_mut(to) };
    bytes.fill((number % 251) as u8);
    bytes[..4].copy_from_slice(&number.to_ne_bytes());
}

/// The number of the frame, of which each byte is as the camera wrote it.
fn read(memory: &Memory, from: &Handle) -> u32 {
    // SAFETY: the camera writes only while it has the only handle.
    let bytes = unsafe { memory.slice(from) };
    let number = u32::from_ne_bytes([bytes[0], bytes[1], bytes[2], bytes[3]]);
    assert!(bytes[4..].iter().all(|byte| *byte == (number % 251) as u8), "frame {number} is torn");
    number
}

fn camera(memory: &Memory, client: Client, encoder: ClientId) -> Result<(), Error> {
    let mine = take_part(&client, 3, SIZE)?;
    let all = mine.take()?.unwrap();
    let mut free: Vec<Buffer> = all.iter().map(Handle::buffer).collect();
    let mut number = 0;
    while number < LAST.load(Acquire) {
        while let Some(buffer) = free.pop() {
            number += 1;
            let frame = &all[usize::from(buffer.index)];
            write(memory, frame, number);
            for to in [encoder, SCREEN.load(Acquire)] {
                drop(frame.duplicate()?.give(to)); // refused while the display is gone
            }
            frame.tell_idle(1)?; // `pending` names it
            if number >= LAST.load(Acquire) {
                break;
            }
        }
        if number < LAST.load(Acquire) {
            free.extend(wait_for(&client).idle);
        }
    }
    for frame in &all {
        assert!(frame.wait_idle(1, LONG)?.is_done());
    }
    mine.release()
}

/// Checks so many frames, or until the last one; answers the number of the last one that it saw.
fn watch(memory: &Memory, client: &Client, count: u32) -> Result<u32, Error> {
    let mut seen = 0;
    loop {
        for _ in 0..wait_for(client).parcels {
            let frame = client.collect()?.unwrap().handle().unwrap();
            let number = read(memory, &frame);
            seen += 1;
            if seen == count || number == LAST.load(Acquire) {
                return Ok(number);
            }
        } // the handle goes, and perhaps the camera learns that it has the only one
    }
}

fn encoder(memory: &Memory, client: Client) -> Result<(), Error> {
    let mine = take_part(&client, 1, 4096)?;
    let mut number = 0;
    while number != LAST.load(Acquire) {
        number += 1;
        assert_eq!(watch(memory, &client, 1)?, number, "a frame is missing");
    }
    mine.release()
}

fn display(memory: &Memory, client: Client, crashes: bool) -> Result<(), Error> {
    let mine = take_part(&client, 1, 4096)?;
    SCREEN.store(client.id(), Release);
    let number = watch(memory, &client, 100)?;
    if crashes {
        return Ok(()); // the client vanishes, with a node, parcels and perhaps handles
    }
    LAST.store(number + 20, Release); // at most 5 are on their way
    watch(memory, &client, u32::MAX)?;
    mine.release()
}

fn main() -> Result<(), Error> {
    let memory = Memory::open(64)?;
    let options = Options { pages: 64, memory: Some(memory.clone()), ..Options::default() };
    let service = Service::open(options)?;
    let app = service.join_as("app")?;
    let root = app.open_root("app")?;
    let shown = root.duplicate("display")?;
    shown.set_dispensable()?;
    let (cam, enc) = (service.join_as("camera")?, service.join_as("encoder")?);
    let dis = service.join_as("display")?;
    app.fd().unwrap(); // from now on `pending` tells
    let gone = shown.track_node()?.id();
    root.duplicate("camera")?.give(cam.id())?;
    root.duplicate("encoder")?.give(enc.id())?;
    shown.give(dis.id())?;
    let mine = root.bind()?;
    SCREEN.store(dis.id(), Release);
    for one in mine.waits_for()? {
        let how = if one.is_in_parcel { "in a parcel for" } else { "held by" };
        let whom = one.receiver_label.or(one.holder_label).unwrap_or_default();
        println!("the allocation waits for {}, {how} {whom}", one.label.unwrap_or_default());
    }
    let memory = &*memory;
    thread::scope(|scope| -> Result<(), Error> {
        let to = enc.id();
        let mut all = vec![
            scope.spawn(move || camera(memory, cam, to)),
            scope.spawn(move || encoder(memory, enc)),
            scope.spawn(move || display(memory, dis, true)),
        ];
        mine.set_constraints(Constraints { camping: 0, at_least: 0, size: 1 })?;
        while !wait_for(&app).fired.contains(&gone) {}
        println!("app: the display crashed, here is another");
        let next = service.join_as("display")?;
        mine.attach_token("again")?.give(next.id())?;
        all.push(scope.spawn(move || display(memory, next, false)));
        all.into_iter().try_for_each(|one| one.join().unwrap())
    })?;
    println!("all frames were whole, and came back");
    mine.release()?;
    println!("{} pages free, {} nodes live", service.free_pages(), service.live()?.len());
    Ok(())
}
