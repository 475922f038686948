// One program, compiled twice: over the crate `sysmem`, whose clients are threads, and over `sysmem_remote`. What
// differs between the two is in the modules that include it.
use std::fmt::{Display, Write};

fn say<T, E: Display>(out: &mut String, what: &str, result: Result<T, E>) {
    let told = result.map_or_else(|error| error.to_string(), |_| "ok".to_string());
    writeln!(out, "{what}: {told}").unwrap();
}

pub fn run() -> Result<String, Error> {
    let mut text = String::new();
    let out = &mut text;
    let world = World::open();
    let service = &world.service;
    let (app, other) = (service.join_as("app")?, service.join_as("other")?);
    let post = world.post(&other);
    let root = app.open_root("root")?;
    let (kid, weak) = (root.duplicate("kid")?, root.duplicate("weak")?);
    say(out, "dispensable", kid.set_dispensable());
    say(out, "weak", weak.set_weak());
    say(out, "weak ok", weak.set_weak_ok(true));
    say(out, "give", kid.give(post.to()));
    let kid = post.collect(&other).token().unwrap();
    say(out, "empty", post.is_empty(&other).then_some(()).ok_or("not empty"));
    let (a, b, w) = (root.bind()?, kid.bind()?, weak.bind()?);
    let gone = b.track_node()?;
    say(out, "constraints", a.set_constraints(Constraints { camping: 2, at_least: 0, size: 5000 }));
    say(out, "too many", a.set_constraints(Constraints { camping: 2, at_least: 65, size: 5000 }));
    let waits: Vec<String> = b.waits_for()?.into_iter().filter_map(|one| one.label).collect();
    writeln!(out, "{:?}, waits for {waits:?}", a.check()?).unwrap();
    writeln!(out, "{:?}", a.wait_allocated(Duration::from_millis(5))?).unwrap();
    let cancel = Cancel::new();
    cancel.cancel();
    writeln!(out, "{:?}", a.wait_allocated(&cancel)?).unwrap();
    say(out, "constraints", b.set_constraints(Constraints { camping: 1, at_least: 0, size: 4096 }));
    say(out, "constraints", w.set_constraints(Constraints { camping: 0, at_least: 0, size: 1 }));
    writeln!(out, "{:?}", a.wait_allocated(LONG)?).unwrap();
    let (mut handles, weakly) = (a.take()?.unwrap(), w.take()?.unwrap());
    writeln!(out, "{} {}, {} {}", handles.len(), handles[1].strength(), weakly.len(), weakly[1].strength())
        .unwrap();
    let is_same = handles[1].buffer() == weakly[1].buffer();
    writeln!(out, "{is_same} {} open, buffer {}", handles[1].open_handles()?, handles[1].buffer().index).unwrap();
    let more = handles[1].duplicate()?;
    writeln!(out, "{} open, {:?}", more.open_handles()?, more.wait_idle(2, Duration::from_millis(5))?).unwrap();
    world.bytes(&handles[1])[4999].store(8, Relaxed);
    writeln!(out, "{} in {}", world.bytes(&more)[4999].load(Relaxed), world.bytes(&more).len()).unwrap();
    drop(more);
    writeln!(out, "{:?}", handles[1].wait_idle(2, LONG)?).unwrap();
    handles.remove(2).give(post.to())?;
    let third = post.collect(&other).handle().unwrap();
    writeln!(out, "{} {}", third.buffer().index, third.open_handles()?).unwrap();
    handles.push(third);
    other.fd().unwrap();
    handles[2].tell_idle(1)?; // nobody's drop makes it so yet
    let (left, soon) = (a.track_lifetime(1)?, weakly[1].track_weak()?);
    b.close();
    writeln!(out, "gone {}", world.waits(&gone).is_done()).unwrap();
    say(out, "the others", a.sync());
    let attached = a.attach_token("attached")?.bind()?;
    say(out, "constraints", attached.set_constraints(Constraints { camping: 3, at_least: 0, size: 1 }));
    say(out, "too few", attached.sync());
    attached.close();
    let nodes = service.nodes()?;
    let named = |node: &Node| format!("{:?} {} {}", node.label, node.is_bound, node.is_gone);
    writeln!(out, "{:?}", nodes.iter().filter(|node| !node.is_gone).map(named).collect::<Vec<_>>()).unwrap();
    say(out, "again", a.set_constraints(Constraints { camping: 1, at_least: 0, size: 1 }));
    say(out, "after", w.check());
    writeln!(out, "fired {:?} {:?}", soon.poll(), left.poll()).unwrap();
    handles.clear();
    writeln!(out, "soon {} left {:?}", world.waits(&soon).is_done(), left.poll()).unwrap();
    drop(weakly);
    writeln!(out, "left {}", world.waits(&left).is_done()).unwrap();
    say(out, "release", a.release());
    w.close();
    Ok(text)
}
