//! What each drop does, what errors tell, and how trackers and waits are told.
use std::sync::atomic::{AtomicU32, AtomicU64, Ordering};
use std::sync::Arc;
use std::thread;
use std::time::{Duration, Instant};
use sysmem::*;

const LONG: Duration = Duration::from_secs(60);
const SHORT: Duration = Duration::from_millis(5);

fn service() -> Service {
    Service::open(Options::default()).unwrap()
}

fn asks(camping: u8, size: u32) -> Constraints {
    Constraints { camping, at_least: 0, size }
}

fn bound(client: &Client, wanted: Constraints) -> Collection {
    let collection = client.open_root("").unwrap().bind().unwrap();
    collection.set_constraints(wanted).unwrap();
    collection
}

fn token(client: &Client) -> Token {
    client.collect().unwrap().unwrap().token().unwrap()
}

#[test]
fn service_and_values_cross_threads() {
    fn crosses<T: Send + Sync>() {}
    crosses::<Service>();
    crosses::<Client>();
    crosses::<Token>();
    crosses::<Collection>();
    crosses::<Handle>();
    crosses::<Tracker>();
    crosses::<Error>();
}

#[test]
fn dropped_token_fails_its_tree() {
    let service = service();
    let (app, display) = (service.join().unwrap(), service.join().unwrap());
    let root = app.open_root("app").unwrap();
    root.duplicate("display").unwrap().give(display.id()).unwrap();
    let mine = root.bind().unwrap();
    mine.set_constraints(asks(2, 4096)).unwrap();
    let theirs = token(&display);
    let key = theirs.key();
    assert_eq!(mine.check(), Ok(None));
    drop(theirs);
    let label = Some("display".to_string());
    let told = mine.check().unwrap_err();
    assert_eq!(told, Error::PeerClosed { cause: Cause::Lost, origin: key, label });
    assert_eq!(told.to_string(), format!("closed: lost, by node {key} (display)"));
    assert_eq!(service.cause(mine.key()), Some((Cause::Lost, key)));
    assert_eq!(service.live(), Ok(vec![]));
}

#[test]
fn released_collection_leaves_pages_to_handles() {
    let service = service();
    let (a, b) = (service.join().unwrap(), service.join().unwrap());
    let collection = bound(&a, asks(2, 8192));
    let mut handles = collection.take().unwrap().unwrap();
    assert_eq!((handles.len(), service.free_pages()), (2, 12));
    handles.pop().unwrap().give(b.id()).unwrap();
    collection.release().unwrap();
    drop(handles);
    assert_eq!((service.live().unwrap().len(), service.free_pages()), (0, 14));
    let last = b.collect().unwrap().unwrap().handle().unwrap();
    let more = last.duplicate().unwrap();
    drop(last);
    assert_eq!(service.held().unwrap(), [Held { buffer: more.buffer(), start: 2, pages: 2 }]);
    drop(more);
    assert_eq!(service.free_pages(), 16);
}

#[test]
fn dropped_client_vanishes() {
    let service = service();
    let (a, b) = (service.join().unwrap(), service.join().unwrap());
    let root = a.open_root("").unwrap();
    root.duplicate("parcel").unwrap().give(b.id()).unwrap();
    let kept = bound(&b, asks(1, 4096));
    let handles = kept.take().unwrap().unwrap();
    let other = b.open_root("").unwrap();
    drop(b);
    assert_eq!((service.live().unwrap().len(), service.free_pages()), (0, 16));
    assert!(matches!(root.sync(), Err(Error::PeerClosed { label: Some(l), .. }) if l == "parcel"));
    assert_eq!(kept.check(), Err(Error::Vanished));
    let before = service.events();
    drop((handles, other, kept));
    assert_eq!(service.events(), before);
    let back = root.give(99).unwrap_err();
    assert_eq!(back.error, Error::Refused(Refusal::NoSuchClient));
    assert!(back.value.sync().is_err());
}

#[test]
fn given_values_are_not_closed_again() {
    let service = service();
    let (a, b) = (service.join().unwrap(), service.join().unwrap());
    let collection = bound(&a, asks(1, 4096));
    let mut handles = collection.take().unwrap().unwrap();
    handles.pop().unwrap().give(b.id()).unwrap();
    collection.give(b.id()).unwrap();
    let before = service.events();
    drop(a);
    assert_eq!((service.events(), service.free_pages()), (before + 1, 15));
    assert!(b.collect().unwrap().unwrap().handle().is_ok());
    assert!(b.collect().unwrap().unwrap().collection().is_ok());
    assert_eq!(service.free_pages(), 16);
}

#[test]
fn refusals_misuses_and_faults() {
    assert_eq!(
        Service::open(Options { pages: 0, ..Options::default() }).err(),
        Some(Error::BadLimits(OutOfRange { what: "pages", is: 0, least: 1, most: 1 << 20 }))
    );
    let few = Options { nodes: 1, events: Some(40), ..Options::default() };
    let service = Service::open(few).unwrap();
    let a = service.join().unwrap();
    let root = a.open_root("").unwrap();
    assert_eq!(root.duplicate("").err(), Some(Error::Refused(Refusal::TooManyNodes)));
    let collection = root.bind().unwrap();
    let bad = collection.set_constraints(asks(65, 1)).unwrap_err();
    assert_eq!(bad.to_string(), "bad call: camping is 65, and must be 0 to 64");
    collection.set_constraints(asks(1, 1)).unwrap();
    let again = collection.set_constraints(asks(1, 1));
    assert_eq!(again, Err(Error::Misused(Misuse::SecondConstraints)));
    while a.shut().is_ok() {}
    assert_eq!((service.events(), service.join().err()), (40, Some(Error::HistoryFull)));
}

#[test]
fn trackers_and_waits() {
    let service = service();
    let (a, b) = (service.join().unwrap(), service.join().unwrap());
    let root = a.open_root("").unwrap();
    root.duplicate("").unwrap().give(b.id()).unwrap();
    let node = root.track_node().unwrap();
    let mine = root.bind().unwrap();
    let heard = Arc::new((AtomicU64::new(0), AtomicU32::new(0)));
    node.on_fired({
        let (heard, service) = (heard.clone(), service.clone());
        move |event| {
            heard.0.store(event, Ordering::SeqCst);
            heard.1.store(service.free_pages(), Ordering::SeqCst);
        }
    });
    assert_eq!(node.wait_for(SHORT), Waited::TimeOver);
    mine.set_constraints(asks(1, 4096)).unwrap();
    let before = service.events();
    let start = Instant::now();
    thread::scope(|scope| {
        scope.spawn(|| {
            let theirs = b.collect_for(LONG).unwrap().unwrap().token().unwrap().bind().unwrap();
            thread::sleep(Duration::from_millis(20));
            theirs.set_constraints(asks(1, 8192)).unwrap();
            theirs.release().unwrap();
        });
        let given = mine.wait_allocated(LONG);
        assert_eq!(given, Ok(Waited::Done(Allocation { count: 2, size: 8192 })));
    });
    assert!(start.elapsed() < LONG - Duration::from_secs(1)); // told, and not by the end of its time
    assert!(service.events() <= before + 4 + 3);
    let life = mine.track_lifetime(0).unwrap();
    let handles = mine.take().unwrap();
    mine.close();
    let event = node.poll().unwrap();
    assert_eq!((heard.0.load(Ordering::SeqCst), heard.1.load(Ordering::SeqCst)), (event, 12));
    assert_eq!(life.poll(), None);
    thread::scope(|scope| {
        let waits = scope.spawn(|| life.wait_for(4 * LONG).done().map(|_| life.wait()));
        thread::sleep(Duration::from_millis(20));
        let start = Instant::now();
        drop(handles);
        assert_eq!(waits.join().unwrap(), life.poll());
        assert!(start.elapsed() < LONG);
    });
    let alone = a.open_root("").unwrap().bind().unwrap();
    assert_eq!(alone.wait_allocated(SHORT), Ok(Waited::TimeOver));
    assert_eq!(alone.wait_allocated(SHORT), Ok(Waited::TimeOver));
    assert!(matches!(a.collect_for(SHORT), Ok(Waited::TimeOver)));
    assert_eq!(Option::from(life.wait_for(SHORT)), life.poll());
}

#[test]
fn gift_wakes_who_waits() {
    let service = service();
    let (a, b) = (service.join().unwrap(), service.join().unwrap());
    let start = Instant::now();
    thread::scope(|scope| {
        let waits = scope.spawn(|| {
            let token = b.collect_for(2 * LONG).unwrap().unwrap().token();
            let handle = b.collect_for(2 * LONG).unwrap().unwrap().handle();
            token.is_ok() && handle.is_ok()
        });
        thread::sleep(Duration::from_millis(20));
        a.open_root("").unwrap().give(b.id()).unwrap();
        thread::sleep(Duration::from_millis(20));
        let handle = bound(&a, asks(1, 1)).take().unwrap().unwrap().pop().unwrap();
        handle.give(b.id()).unwrap();
        assert!(waits.join().unwrap());
    });
    assert!(start.elapsed() < LONG);
}

#[test]
fn weak_holder_is_told() {
    let service = service();
    let (app, eye) = (service.join().unwrap(), service.join().unwrap());
    let root = app.open_root("").unwrap();
    let watcher = root.duplicate("").unwrap();
    watcher.set_weak().unwrap();
    let strong = root.bind().unwrap();
    watcher.give(eye.id()).unwrap();
    let weak = token(&eye).bind().unwrap();
    strong.set_constraints(asks(1, 4096)).unwrap();
    weak.set_constraints(asks(0, 1)).unwrap();
    let (mine, theirs) = (strong.take().unwrap(), weak.take().unwrap().unwrap());
    assert_eq!(theirs[0].strength(), Strength::Weak);
    let close = theirs[0].track_weak().unwrap();
    strong.release().unwrap();
    assert_eq!(close.poll(), None);
    drop(mine);
    assert!(close.poll().is_some());
    assert_eq!(service.free_pages(), 15);
    drop(theirs);
    assert_eq!(service.free_pages(), 16);
}

#[test]
fn panic_of_a_client_is_its_vanishing() {
    let service = service();
    let app = service.join().unwrap();
    let root = app.open_root("").unwrap();
    let to = service.clone();
    let display = service.join().unwrap();
    root.duplicate("display").unwrap().give(display.id()).unwrap();
    let crashed = thread::spawn(move || {
        let _mine = token(&display);
        let _service = to;
        std::panic::resume_unwind(Box::new("a crash"));
    });
    assert!(crashed.join().is_err());
    assert!(matches!(root.sync(), Err(Error::PeerClosed { cause: Cause::Lost, .. })));
}

#[test]
fn core_outlives_its_service() {
    let service = service();
    let a = service.join_as("a").unwrap();
    assert_eq!((&*a.label(), a.id()), ("a", 1));
    let root = a.open_root("").unwrap();
    let tracker = root.track_node().unwrap();
    drop(service);
    assert_eq!(root.sync(), Ok(()));
    drop(a);
    assert!(tracker.poll().is_some());
    assert_eq!(root.sync(), Err(Error::Vanished));
}

#[test]
fn last_callback_counts_and_may_own_values() {
    let service = service();
    let a = service.join().unwrap();
    let root = a.open_root("").unwrap();
    let (first, second) = (root.track_node().unwrap(), root.track_node().unwrap());
    let heard = Arc::new(std::sync::Mutex::new(Vec::new()));
    let hears = |number: u32| {
        let heard = heard.clone();
        move || heard.lock().unwrap().push(number)
    };
    let (zero, one, two) = (hears(0), hears(1), hears(2));
    first.on_fired(move |_| zero());
    first.on_fired(move |_| one());
    let other = a.open_root("").unwrap();
    second.on_fired(move |_| {
        two();
        drop(other);
    });
    drop((first, second));
    assert_eq!(service.live().unwrap().len(), 2);
    root.close();
    assert_eq!(*heard.lock().unwrap(), [1, 2]);
    assert_eq!(service.live(), Ok(vec![]));
}

#[test]
fn labels_of_forgotten_nodes_go_first() {
    let service = service();
    let a = service.join().unwrap();
    let root = a.open_root("root").unwrap();
    assert_eq!(service.label(root.key()).as_deref(), Some("root"));
    service.set_label(root.key(), "camera");
    for slot in 2000..7000 {
        service.set_label(Key { slot, generation: 7 }, "nobody");
    }
    assert_eq!(service.label(root.key()).as_deref(), Some("camera"));
    assert_eq!(service.label(Key { slot: 2000, generation: 7 }), None);
}

#[test]
fn call_on_a_value_of_a_client_that_vanished_says_so() {
    let service = service();
    let a = service.join().unwrap();
    let (token, other) = (a.open_root("").unwrap(), a.open_root("").unwrap());
    let kept = bound(&a, asks(1, 1));
    let handle = kept.take().unwrap().unwrap().pop().unwrap();
    drop(a);
    let before = service.events();
    fn says<T>(told: Result<T, impl Into<Error>>) {
        let error = told.err().unwrap().into();
        assert_eq!(
            (&error, error.to_string().as_str()),
            (&Error::Vanished, "refused: the client vanished")
        );
    }
    says(kept.sync());
    says(kept.check());
    says(kept.take());
    says(kept.wait_allocated(LONG));
    says(kept.waits_for());
    says(kept.attach_token(""));
    says(kept.track_lifetime(0));
    says(token.duplicate(""));
    says(token.give(1));
    says(other.bind());
    says(handle.duplicate());
    says(handle.pages());
    says(handle.open_handles());
    says(handle.tell_idle(9));
    says(handle.wait_idle(9, LONG));
    says(handle.track_weak());
    says(handle.give(1));
    says(kept.release());
    assert_eq!(service.events(), before); // nor is a drop an event
}
