//! Callbacks that are due.
use std::cell::RefCell;
use std::collections::VecDeque;

/// A callback that is due.
pub(crate) type Due = Box<dyn FnOnce()>;

thread_local! {
    /// The callbacks that are due in this thread; `None` while it runs none.
    static RUNNING: RefCell<Option<VecDeque<Due>>> = RefCell::new(None);
}

/// Ends the list, also after a panic of a callback.
struct End;

impl Drop for End {
    fn drop(&mut self) {
        let _ = RUNNING.try_with(|list| list.borrow_mut().take());
    }
}

/// Runs these callbacks, or leaves them to the caller in this thread that already runs some: one thread
/// never runs a callback inside another one.
pub(crate) fn run(due: impl Iterator<Item = Due>) {
    let mut due: VecDeque<Due> = due.collect();
    if due.is_empty() {
        return;
    }
    let is_outer = RUNNING.try_with(|list| match &mut *list.borrow_mut() {
        Some(list) => {
            list.append(&mut due);
            false
        }
        none => {
            *none = Some(std::mem::take(&mut due));
            true
        }
    });
    match is_outer {
        Ok(false) => {}
        Ok(true) => {
            let _end = End;
            while let Some(next) = next() {
                next();
            }
        }
        // The thread ends, and its list is gone.
        Err(_) => due.into_iter().for_each(|next| next()),
    }
}

fn next() -> Option<Due> {
    RUNNING.with(|list| list.borrow_mut().as_mut().and_then(VecDeque::pop_front))
}
