//! What was recorded, played again, gives the recorded replies.
use crate::script_tests::play_lines;
use crate::*;
use std::fs::File;
use std::sync::{Arc, Mutex};

#[path = "../tests/common/things.rs"]
pub(crate) mod things;
use things::{Dice, Things};

/// The transcript of a crowd: the clients of one thread, four at a time.
fn transcript() -> String {
    let options = Options { pages: 256, transcript: true, ..Options::default() };
    let service = Service::open(options).unwrap();
    let mut dice = Dice(44);
    let mut clients: Vec<(Client, Things)> = Vec::new();
    for _ in 0..6000 {
        if clients.len() < 4 {
            clients.push((service.join_as("client").unwrap(), Things::default()));
        }
        let (who, other) = (dice.upto(4), dice.upto(4));
        let other = clients.get(other).map_or(1, |other| other.0.id());
        if let Some((client, things)) = clients.get_mut(who) {
            let _ = things.step(client, other, &mut dice);
        }
        if dice.upto(50) == 0 {
            dice.take_out(&mut clients);
        }
    }
    drop(clients);
    assert_eq!((service.live(), service.held()), (Ok(vec![]), Ok(vec![])));
    service.transcript()
}

#[test]
fn transcript_is_answered_as_recorded() {
    let transcript = transcript();
    let is_call = |line: &&str| !line.starts_with(' ') && !line.starts_with('#');
    let calls: Vec<&str> = transcript.lines().filter(is_call).collect();
    let replies: Vec<&str> =
        transcript.lines().filter_map(|line| line.strip_prefix("  ")).collect();
    assert!(calls.len() > 2000 && calls.len() == replies.len());
    let played = play_lines(256, &calls);
    for (i, told) in played.lines().enumerate() {
        assert_eq!(told, replies[i], "call {}: {}", i + 1, calls[i]);
    }
}

#[test]
fn labels_are_those_of_the_program_where_they_fit() {
    let lines = Arc::new(Mutex::new(String::new()));
    let to = lines.clone();
    let record: Record = Arc::new(move |two| to.lock().unwrap().push_str(two));
    let options = Options { record: Some(record), transcript: true, ..Options::default() };
    let service = Service::open(options).unwrap();
    let (app, other) = (service.join_as("app").unwrap(), service.join_as("show").unwrap());
    let root = app.open_root("root").unwrap();
    let again = root.duplicate("root").unwrap();
    let made = root.duplicate("n7").unwrap();
    again.give(other.id()).unwrap();
    assert!(made.give(99).is_err());
    let told = lines.lock().unwrap().clone();
    assert_eq!(
        told,
        "app join\n  joined\nc2 join\n  joined\napp open root\n  token root\n\
         app dup root n4\n  token n4\napp dup root n5\n  token n5\napp give n4 c2\n  done\n\
         # app give n5 ?\n#   refused 1 NoSuchClient\n\
         app close n5\n  done\n"
    );
    assert_eq!(service.transcript(), format!("# pages 16\n{told}"));
    assert_eq!(Service::open(Options::default()).unwrap().transcript(), "");
}

#[test]
fn versions_are_told_apart() {
    let expect = |is| words::expect_version(is, "2", "3");
    assert_eq!([expect(20_300), expect(20_305), expect(29_900)], [Ok(()), Ok(()), Ok(())]);
    let told = expect(20_299).unwrap_err().to_string();
    assert!(told.ends_with("the library's version is 20299, and must be 20300 to 29999"), "{told}");
    assert!(expect(30_300).is_err() && expect(10_300).is_err());
}

/// Also at a failure, where those are left out that were written before.
#[test]
fn last_events_are_kept() {
    let name = format!("sysmem-last-{}", std::process::id());
    let path = std::env::temp_dir().join(name);
    let (last, one) = (record_last(4, Some(File::create(&path).unwrap())), record_last(0, None));
    assert_eq!(last.text(), "# events 1 to 0\n");
    let to = [last.record(), one.record()];
    let record: Record = Arc::new(move |lines| to.iter().for_each(|to| to(lines)));
    let service = Service::open(Options { record: Some(record), ..Options::default() }).unwrap();
    let app = service.join_as("app").unwrap();
    let root = app.open_root("root").unwrap();
    assert_eq!(last.text(), "# events 1 to 2\napp join\n  joined\napp open root\n  token root\n");
    assert_eq!(one.text(), "# events 2 to 2\napp open root\n  token root\n");
    let (child, other) = (root.duplicate("child").unwrap(), root.duplicate("").unwrap());
    drop(child);
    let first = "app open root\n  token root\n";
    let some = "app dup root child\n  token child\napp dup root n4\n  token n4\n\
                app close child\n  done\n";
    assert_eq!(last.text(), format!("# events 2 to 5\n{first}{some}"));
    assert_eq!(std::fs::read_to_string(&path).unwrap(), "");
    assert!(root.sync().is_err() && other.sync().is_err());
    let then = "app sync root\n  closed lost child\n";
    let more = "# events 7 to 7\napp sync n4\n  closed lost child\n";
    let written = std::fs::read_to_string(&path).unwrap();
    std::fs::remove_file(&path).unwrap();
    assert_eq!(written, format!("# events 3 to 6\n{some}{then}{more}"));
}
