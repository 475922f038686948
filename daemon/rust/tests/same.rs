//! One program in both worlds: it says the same.
mod rig;

mod threads {
    use crate::rig::LONG;
    use std::sync::atomic::{AtomicU8, Ordering::Relaxed};
    use std::sync::Arc;
    use std::time::Duration;
    use sysmem::*;

    struct World {
        service: Service,
        memory: Arc<Memory>,
    }
    struct Post(ClientId);

    impl World {
        fn open() -> World {
            let memory = Memory::open(16).unwrap();
            let options = Options { memory: Some(memory.clone()), ..Options::default() };
            World { service: Service::open(options).unwrap(), memory }
        }
        fn post(&self, to: &Client) -> Post {
            Post(to.id())
        }
        fn bytes<'a>(&'a self, of: &'a Handle) -> &'a [AtomicU8] {
            self.memory.bytes(of)
        }
        fn waits(&self, tracker: &Tracker) -> Waited<Event> {
            tracker.wait_for(LONG)
        }
    }
    impl Post {
        fn to(&self) -> ClientId {
            self.0
        }
        fn collect(&self, client: &Client) -> Parcel {
            client.collect_for(LONG).unwrap().unwrap()
        }
        fn is_empty(&self, client: &Client) -> bool {
            client.collect().unwrap().is_none()
        }
    }
    include!("same/program.rs");
}

mod processes {
    use crate::rig::{Daemon, LONG};
    use std::os::unix::net::UnixStream;
    use std::sync::atomic::{AtomicU8, Ordering::Relaxed};
    use std::time::Duration;
    use sysmem_remote::*;

    struct World {
        service: Service,
        _daemon: Daemon,
    }
    struct Post(UnixStream, UnixStream);

    impl World {
        fn open() -> World {
            let daemon = Daemon::new(&["--pages", "16"]);
            World { service: daemon.service(), _daemon: daemon }
        }
        fn post(&self, _to: &Client) -> Post {
            let (to, from) = UnixStream::pair().unwrap();
            Post(to, from)
        }
        fn bytes<'a>(&'a self, of: &'a Handle) -> &'a [AtomicU8] {
            of.bytes().unwrap()
        }
        fn waits(&self, tracker: &Tracker) -> Waited<Event> {
            tracker.wait_for(LONG).unwrap()
        }
    }
    impl Post {
        fn to(&self) -> &UnixStream {
            &self.0
        }
        fn collect(&self, client: &Client) -> Parcel {
            client.collect_for(&self.1, LONG).unwrap().unwrap()
        }
        fn is_empty(&self, client: &Client) -> bool {
            client.collect(&self.1).unwrap().is_none()
        }
    }
    include!("same/program.rs");
}

#[test]
fn both_say_the_same() {
    let (here, there) = (threads::run().unwrap(), processes::run().unwrap());
    assert_eq!(here, there, "threads say\n{here}\nprocesses say\n{there}");
    assert!(here.lines().count() == 30);
    print!("{here}");
}
