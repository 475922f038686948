#!/usr/bin/env python3
"""Tries wrong daemons and clients: each has to be caught by a test.

    make && ./wrong.py [WORD..]      takes some half an hour
    ./wrong.py --apply               says only which of them no longer apply

A wrong one is a text of a file that is replaced by another, with the tests that should catch it. With words, those whose
names have one of them are tried. The last line counts."""
import glob
import os
import shutil
import subprocess
import sys

HERE = os.path.dirname(os.path.abspath(__file__))
sys.dont_write_bytecode = True
sys.path.insert(0, f"{HERE}/../bindings")
import wrong_ones

LIBRARY = os.environ.get("LIBRARY", f"{HERE}/../bindings/build/libsysmem.a")

# To serve an event of a former socket for its successor is not among them: it reads where nothing is, and does no harm.
# the file, what is wrong, the text, what stands in its place, the tests
WRONG = [
    ("src/hangups.cpp", "late calls are forgotten", "if (!give_up(o)) put_off(o);", "(void)give_up(o);", "late_calls"),
    ("src/hangups.cpp", "late calls are not tried again", "        if (give_up(*o)) continue;\n        put_off(*o);\n        return;", "        return;", "late_calls"),
    ("src/leases.cpp", "a late call comes between the look and the Take", "a = raw_step(d, c);", "a = step(d, c);", "late_release"),
    ("src/messages.cpp", "sends wait", "sendmsg(o.fd, &goes.head, MSG_DONTWAIT | MSG_NOSIGNAL)", "sendmsg(o.fd, &goes.head, MSG_NOSIGNAL)", "late_calls"),
    ("src/messages.cpp", "sends raise signals", "sendmsg(o.fd, &goes.head, MSG_DONTWAIT | MSG_NOSIGNAL)", "sendmsg(o.fd, &goes.head, MSG_DONTWAIT)", "late_calls"),
    ("src/messages.cpp", "a full socket stays", "if (why == EAGAIN || count == 0) cut(o, SYSMEMD_UNREAD);", "", "full_sockets"),
    ("src/sockets.cpp", "hangups of former sockets end new ones", "if (!o || o->stamp != stamp) return;", "(void)stamp;\n    if (!o) return;\n    if (events & EPOLLHUP) return hang_up(*o), sweep();", "stale_events"),
    ("src/requests.cpp", "a claim finds what is cut", "at == by_cookie.end() || at->second->is_cut ? nullptr", "at == by_cookie.end() ? nullptr", "cut_and_claimed"),
    ("src/requests.cpp", "a claim needs no offer", "found && number != 0 && found->offer == number ? found : nullptr", "found", "stolen"),
    ("src/requests.cpp", "a claim moves before it delivers", "    ::close(two[1]);\n    move_to", "    move_to", "exhausted travels crowd"),
    ("src/requests.cpp", "copies of a claimed socket stay", "    close_side(o);\n    files++;\n    o.domain->descriptors++;", "    by_fd[std::size_t(o.fd)] = nullptr;", "stolen"),
    ("src/requests.cpp", "a claimed end is not told of its failure", "    if (o.is == Is::End && (static_cast", "    if (false && (static_cast", "stolen"),
    ("src/requests.cpp", "a claimed tracker is not told that it fired", "    if (o.is == Is::Tracker && static_cast", "    if (false && static_cast", "trackers"),
    ("src/requests.cpp", "unread fields may be anything", "    return ((reads & SIZE) || !q.size) && ", "    if (reads < 128) return true;\n    return ((reads & SIZE) || !q.size) && ", "malformed"),
    ("src/requests.cpp", "labels of ops without one", "    if (!(reads & LABEL))\n", "    if (false)\n", "malformed"),
    ("src/requests.cpp", "requests before Hello", "(!o.domain && all[i].op != SYSMEMD_HELLO) || ", "", "fuzzed malformed"),
    ("src/hangups.cpp", "silent connections stay", "        cut(c, SYSMEMD_LATE);", "", "half_open"),
    ("src/connections.cpp", "any version", "if (q.left != SYSMEMD_VERSION) return", "if (false) return", "malformed"),
    ("src/connections.cpp", "a uid may have all descriptors", "return d.descriptors + more <= left && may_send(d, 2);", "return more <= left && may_send(d, 2);", "exhausted"),
    ("src/connections.cpp", "connections are not counted", "callers[peer.uid]++;", "callers[peer.uid] = 1;", "uid_limits half_open"),
    ("src/sockets.cpp", "no shares of a round", "if (spent >= options.share) return;", "", "shares"),
    ("src/sockets.cpp", "descriptors are received", "    setsockopt(fd, SOL_SOCKET, SO_PASSRIGHTS, &off, sizeof off);", "    (void)off;", "lingering malformed"),
    ("src/sockets.cpp", "nothing is choked", "return (unread(o) + 1) * 4 > room || o.aloft >= 64;", "return o.aloft >= 64;", "unread"),
    ("src/hangups.cpp", "a hangup releases", "call_on(e.is_undelivered ? SYSMEM_RELEASE : SYSMEM_CLOSE, e.key)", "call_on(SYSMEM_RELEASE, e.key)", "travels"),
    ("src/hangups.cpp", "a hangup of a lease drops nothing", "Answer a = raw_step(d, c);\n    if (a.code == SYSMEM_NO_MEMORY) return false;\n    if (a.code != SYSMEM_DONE) say(\"uid %u: a handle", "Answer a;\n    if (a.code == SYSMEM_NO_MEMORY) return false;\n    if (a.code != SYSMEM_DONE) say(\"uid %u: a handle", "life"),
    ("src/hangups.cpp", "who waits is not told of a drop", "    tell_idle(t, index);\n    settle", "    settle", "many_idle"),
    ("src/leases.cpp", "any number is idle", "|| b.open > l->most) continue;", ") continue;", "idle"),
    ("src/leases.cpp", "an event of an earlier wait", "r.set = l->wait;", "r.set = 1;", "idle"),
    ("src/leases.cpp", "buffers share a memory", "    if (b.memory >= 0) return true;", "    if (&b != &t.buffers[0] && t.buffers[0].memory >= 0) return b.memory = dup(t.buffers[0].memory), d.memories++, d.descriptors++, files++, true;\n    if (b.memory >= 0) return true;", "life"),
    ("src/leases.cpp", "memory may shrink", "F_SEAL_SHRINK | F_SEAL_GROW | F_SEAL_SEAL", "F_SEAL_GROW | F_SEAL_SEAL", "life"),
    ("src/leases.cpp", "others may be sealed out", "F_SEAL_SHRINK | F_SEAL_GROW | F_SEAL_SEAL", "F_SEAL_SHRINK | F_SEAL_GROW", "life"),
    ("src/leases.cpp", "memory stays", "        if (!(set >> i & 1)) forget_memory", "        if (false) forget_memory", "answers"),
    ("src/leases.cpp", "memory goes while it is held", "        if (!(set >> i & 1)) forget_memory", "        if (true || !(set >> i & 1)) forget_memory", "life killed"),
    ("src/leases.cpp", "memory is wiped", "    if (t.bytes() < (1 << 20)", "    fallocate(b.memory, FALLOC_FL_PUNCH_HOLE | FALLOC_FL_KEEP_SIZE, 0, 4096);\n    if (t.bytes() < (1 << 20)", "locked_file"),
    ("src/leases.cpp", "nothing is reserved", "    if (options.reserves) {", "    if (false) {", "reserved"),
    ("src/leases.cpp", "a strong handle tracks", "if (l.strength != SYSMEM_WEAK) return", "if (false) return", "answers"),
    ("src/events.cpp", "failures are not told", "        tell_failed(e);\n    }\n}", "    }\n}", "travels"),
    ("src/events.cpp", "allocations are not told", "        sysmem_given(&e.domain->core, e.tree->id, &r.count, &r.size);\n        send(e, r);", "        sysmem_given(&e.domain->core, e.tree->id, &r.count, &r.size);", "life"),
    ("src/events.cpp", "firings are told to nobody", "            tell_fired(*t);\n        }", "        }", "answers"),
    ("src/ends.cpp", "a bound end is a token", "e.is_bound = true;", "", "travels"),
    ("src/ends.cpp", "a refused release closes", "        e.is_undelivered = true; // it is released once there is memory\n", "", "late_calls"),
    ("src/lists.cpp", "lists begin anew", "std::min<std::size_t>(q.left, all.size())", "std::size_t(0)", "lists"),
    ("src/listener.cpp", "an old kernel does not matter", "if (options.is_old_ok) return made;", "return made;", "old_kernel"),
    ("src/listener.cpp", "files are removed", "&& !S_ISSOCK(is.st_mode)) {", "&& S_ISDIR(is.st_mode)) {", "options"),
    ("include/sysmem_remote/link.hpp", "an old IDLE answers", "if (r.set != armed) return false;", "", "idle"),
    ("include/sysmem_remote/link.hpp", "waits are not armed again", "is_to_arm |= !i->is_done;", "", "many_idle"),
    ("include/sysmem_remote/link.hpp", "what calls read lights nothing", "    void note() {\n        is_untold = is_news = true;\n        hub->light();", "    void note() {\n        is_untold = is_news = true;", "pending"),
    ("include/sysmem_remote/link.hpp", "ended sockets are watched", "if (is_over) hub->unwatch(*this);", "", "pending"),
    ("include/sysmem_remote/link.hpp", "calls wait for ever", "        auto until = hub->until();\n        std::unique_lock", "        auto until = Clock::time_point::max();\n        std::unique_lock", "deadline"),
    ("include/sysmem_remote/socket.hpp", "bytes without end", "if (bytes++ > 0 && Clock::now() >= until) return -2;", "(void)bytes;", "noisy_peers"),
    ("include/sysmem_remote/socket.hpp", "no wait before a read", "int is = is_patient ? 1 : await(fd, or_room ? POLLIN | POLLOUT : POLLIN, until);", "int is = 1;", "nonblocking"),
    ("include/sysmem_remote/socket.hpp", "a patient read spins", "if (m.length < 0 && errno == EAGAIN) is_patient = false;", "", "nonblocking"),
    ("include/sysmem_remote.hpp", "strangers are written to", "return peer.pid == daemon.pid && peer.uid == daemon.uid;", "return true;", "strangers"),
    ("include/sysmem_remote.hpp", "no look for room", "if (!detail::has_room(fd) || getrandom", "if (getrandom", "full_table"),
    ("include/sysmem_remote/socket.hpp", "no look for room before what comes", "if (!has_room(socket)) return -3;", "", "full_table"),
    ("include/sysmem_remote/link.hpp", "requests are sent in any order", "            int error = ::send(fd, all, count * sizeof *all, MSG_NOSIGNAL | MSG_DONTWAIT) < 0 ? errno : 0;", "            lock.unlock();\n            int error = ::send(fd, all, count * sizeof *all, MSG_NOSIGNAL | MSG_DONTWAIT) < 0 ? errno : 0;\n            lock.lock();", "ordered"),
    ("rust/src/link.rs", "Rust: requests are sent in any order", "            let sent = sys::send(self.as_fd(), &asked.bytes(), None, false);", "            drop(state);\n            let sent = sys::send(self.as_fd(), &asked.bytes(), None, false);\n            state = self.lock();", "order"),
    ("include/sysmem_remote.hpp", "a fault loses what came", "inbox->keep(socket, fd);", "::close(fd);", "full_table"),
    ("rust/src/handle.rs", "Rust: a dropped handle's socket stays", "        Handle { mapping", "        std::mem::forget(link.clone());\n        Handle { mapping", "life"),
    ("rust/src/sys.rs", "Rust: mappings stay", "            unsafe { munmap(start.cast(), self.length) };\n        }\n    }\n}", "        }\n    }\n}", "descriptors"),
    ("rust/src/link.rs", "Rust: who reads sees no Cancel", "ends.as_ref().map(|fd| fd.as_fd())", "None", "waits"),
    ("rust/src/link.rs", "Rust: a Cancel wakes nobody", "        self.changed.notify_all();\n    }\n}", "    }\n}", "waits"),
    ("rust/src/link.rs", "Rust: a reply is the first request's", "waits.find(|slot| slot.0 == message.serial)", "waits.next()", "waits"),
    ("rust/src/link.rs", "Rust: an old IDLE answers", "            told::IDLE if message.set != self.armed => return false, // of an earlier wait\n", "", "waits"),
    ("rust/src/link.rs", "Rust: what calls read lights nothing", "        state.is_news = true;\n        self.hub.light();", "        state.is_news = true;", "waits"),
    ("rust/src/hub.rs", "Rust: ended sockets are watched", "if is_to_unwatch {", "if false && is_to_unwatch {", "waits"),
    ("rust/src/lib.rs", "Rust: a fault loses what came", "inbox.push((number, value));", "drop(value);", "passing"),
    ("rust/src/lib.rs", "Rust: no look for room before what comes", "            self.link.has_room()?;\n            match sys::receive", "            match sys::receive", "passing"),
    ("src/requests.cpp", "anything may stand before more", "((ops[i]->reads & LAST) && i + 1 < count)", "false", "several"),
    ("src/requests.cpp", "the first of a message alone", "for (std::size_t i = 0; i < count && !o.is_cut; i++)\n        if (!ops", "for (std::size_t i = 0; i < 1 && !o.is_cut; i++)\n        if (!ops", "several"),
    ("src/messages.cpp", "a reply that can't go is lost", "if (why == EAGAIN || count == 0) cut", "if (why == EAGAIN) cut", "refused_in_turn"),
    ("src/inspect.cpp", "anyone inspects", "return c.who.uid == 0 || c.who.uid == geteuid();", "return c.who.uid == 0 || c.who.uid != 0;", "inspectors"),
    ("src/inspect.cpp", "root alone inspects", "return c.who.uid == 0 || c.who.uid == geteuid();", "return c.who.uid == 0;", "inspectors"),
    ("src/inspect.cpp", "objects of the first message alone", "    if (at < by_fd.size()) m.reply.set = at;\n", "", "inspected"),
    ("src/connections.cpp", "root stays outside", " && uid != 0 && uid != geteuid()", "", "inspectors"),
    ("src/transcript.cpp", "a transcript may be written", "O_RDONLY", "O_RDWR", "ctl"),
    ("src/sockets.cpp", "descriptors under way without end", " || o.aloft >= 64;", ";", "unread_files"),
    ("src/sockets.cpp", "a uid has all descriptors under way", "    return is_in();\n", "    return true;\n", "in_flight"),
    ("src/sockets.cpp", "what was read is still under way", "!is_in() && i < 256 && d.aloft_first", "false && i < 256 && d.aloft_first", "in_flight"),
    ("src/sockets.cpp", "what is cut counts no more", "auto *rest = count > 0 ?", "auto *rest = count > 1000000 ?", "unread_files"),
    ("src/sockets.cpp", "a Rest stays", "return is_read(*o) ? destroy(o) : void(), sweep();", "return;", "unread_files"),
    ("src/sockets.cpp", "who waits for memory does not hang up", "if (is_over && o->is_held) o->is_held = false, o->taking = 0;", "if (is_over && o->is_held) return;", "slow_memory"),
    ("src/leases.cpp", "the loop gives large memory back", "if (t.bytes() < (1 << 20) && b.reserved != Buffer::UNDER_WAY)", "if (t.bytes() > 0 && b.reserved != Buffer::UNDER_WAY)", "large"),
    ("src/leases.cpp", "memory is handed out before it is there", "        if (b.reserved == Buffer::UNDER_WAY) all = Buffer::UNDER_WAY;\n", "", "slow_memory reserved"),
    ("src/leases.cpp", "a Take that waited is forgotten", "if (std::exchange(e->is_held, false)) choke(*e, false);", "if (std::exchange(e->is_held, false)) e->taking = 0, choke(*e, false);", "slow_memory"),
    ("src/worker.cpp", "the first slice is all", "if (is != 0 || e.from == e.length)", "if (true)", "slow_memory"),
    ("src/worker.cpp", "a refusal is a success", "finish(turn, 0, is == 0)", "finish(turn, 0, true)", "reserved"),
    ("src/worker.cpp", "files stay open", "        ::close(file);\n        lock.lock();", "        lock.lock();", "large"),
    ("src/main.cpp", "accept is tried at once", "if ((errno == EMFILE || errno == ENFILE) && turn_one_away()) return;", "if (errno == EMFILE || errno == ENFILE) return void(turn_one_away());", "accept_errors"),
    ("src/listener.cpp", "any descriptor listens", " || option_of(3, SO_ACCEPTCONN) != 1", "", "activated"),
    ("src/listener.cpp", "descriptors for another process", "std::strtol(pid, nullptr, 10) == getpid()", "std::strtol(pid, nullptr, 10) != 0", "activated"),
    ("src/listener.cpp", "more descriptors stay open", "    for (int other = 4; other < 3 + count; other++) close(other);\n", "    (void)count;\n", "activated"),
    ("include/sysmem_remote/socket.hpp", "a give waits for ever", "MSG_NOSIGNAL | (is_patient ? 0 : MSG_DONTWAIT)", "MSG_NOSIGNAL", "full_receiver"),
    ("include/sysmem_remote/ends.hpp", "an end's give has no deadline", "link->fd, link->hub->until())", "link->fd)", "full_receiver"),
    ("include/sysmem_remote/handle.hpp", "a handle's give has no deadline", "link->fd, link->hub->until())", "link->fd)", "full_receiver"),
    ("include/sysmem_remote/socket.hpp", "a give does not wait", "if (is_full) is = await(socket, POLLOUT, until);", "if (is_full) return ended(Ending::NoReceiver);", "full_receiver"),
    ("include/sysmem_remote/socket.hpp", "a give waits at O_NONBLOCK", " && (fcntl(socket, F_GETFL) & O_NONBLOCK) == 0", "", "full_receiver"),
    ("include/sysmem_remote/link.hpp", "who waits for room does not read", "if (error == EAGAIN) read_one(lock, until, true);", "if (error == EAGAIN) lock.unlock(), (void)await(fd, POLLOUT, until), lock.lock();", "full_both_ways"),
    ("include/sysmem_remote/link.hpp", "who waits for room sleeps while another reads", "if (or_room) until = std::min", "if (false) until = std::min", "full_both_ways"),
    ("include/sysmem_remote/link.hpp", "a failed node has no fault", "if (n.node.flags & SYSMEM_NODE_FAILED)", "if (false)", "answers"),
    ("include/sysmem_remote/link.hpp", "each node has a fault", "if (n.node.flags & SYSMEM_NODE_FAILED)", "if (true)", "life"),
    ("include/sysmem_remote/words.hpp", "a failure has no process", "    e.process = r.pid;\n", "", "travels"),
    ("include/sysmem_remote/words.hpp", "a giver that is gone has no name", "i <= std::uint32_t(Ending::NoGiver)", "i < std::uint32_t(Ending::NoGiver)", "noisy_peers"),
    ("include/sysmem_remote.hpp", "a giver that is gone is time that is over", "if (fd == -1) return detail::ended(Ending::NoGiver);", "if (fd == -1) return std::optional<Parcel>();", "noisy_peers"),
    ("include/sysmem_remote.hpp", "time that is over is a giver that is gone", "if (fd == -1) return detail::ended(Ending::NoGiver);", "if (fd < 0) return detail::ended(Ending::NoGiver);", "noisy_peers"),
    ("rust/src/lib.rs", "Rust: a give waits for ever", "Some(link.as_fd()), until.is_none())", "Some(link.as_fd()), true)", "passing"),
    ("rust/src/lib.rs", "Rust: a give does not wait", "until.filter(|_| is_full)", "until.filter(|_| is_full && false)", "passing"),
    ("rust/src/lib.rs", "Rust: a give waits at O_NONBLOCK", " && !sys::is_nonblocking(to)", "", "passing"),
    ("rust/src/lib.rs", "Rust: a giver that is gone gives nothing", "Ok(got) if got.length == 0 => return Err(Error::NoGiver),", "Ok(got) if got.length == 0 => return Ok(None),", "passing"),
    ("rust/src/link.rs", "Rust: who waits for room does not read", "state = self.read_one(state, until, None, true).0,", "{\n                    drop(state);\n                    let _ = sys::wait(self.as_fd(), sys::POLLOUT, None, until);\n                    state = self.lock();\n                }", "waits"),
    ("rust/src/link.rs", "Rust: who waits for room sleeps while another reads", "if or_room { ROOM_COMES } else { left }", "if or_room { left } else { left }", "waits"),
    ("include/sysmem_remote.hpp", "one message of objects", "} while (q.left != 0);", "} while (false);", "inspected"),
]


def run(words, **more):
    """Runs a command; its output if it fails, and None if it does not."""
    done = subprocess.run(words, capture_output=True, text=True, errors="replace", **more)
    return (done.stdout + done.stderr)[-600:] or "failed" if done.returncode else None


def try_one(room, number, path, name, old, new, tests):
    """Says which test catches it."""
    folder = f"{room}/{number}"
    shutil.copytree(HERE, folder, ignore=shutil.ignore_patterns("build", "target"))
    if path.startswith("src") and os.path.isdir(f"{HERE}/build/plain"):  # make compiles what is newer
        shutil.copytree(f"{HERE}/build/plain", f"{folder}/build/plain")
    if not wrong_ones.make_wrong(f"{folder}/{path}", old, new):
        return "DOES NOT APPLY"
    top = os.path.realpath(f"{HERE}/..")
    if path.startswith("rust"):
        return try_rust(f"{folder}/rust", tests.split())
    make = ["make", "-s", "-C", folder, f"top={top}", f"lib={LIBRARY}"]
    if path.startswith("src"):  # the tests stay as they are
        made = run([*make, "build/sysmemd", "build/sysmemd.wrapped"])
        program, daemon = f"{HERE}/build/tests", f"{folder}/build"
    else:  # the tests in one piece: the headers are read once
        with open(f"{folder}/tests.cpp", "w") as file:
            file.writelines(f'#include "{one}"\n' for one in sorted(glob.glob(f"{folder}/tests/*.cpp")))
        program, daemon = f"{folder}/tests.all", f"{HERE}/build"
        made = run(["c++", "-std=c++17", *[f"-I{it}" for it in (f"{folder}/include", f"{folder}/tests", f"{top}/include",
                                                               f"{top}/bindings/cpp")],
                    f"{folder}/tests.cpp", LIBRARY, "-pthread", "-o", program])
    if made:
        return f"DOES NOT BUILD: {made}"
    environment = dict(os.environ, SYSMEMD=f"{daemon}/sysmemd", WRAPPED=f"{daemon}/sysmemd.wrapped",
                       SYSMEMCTL=f"{HERE}/build/sysmemctl", REFUSE=f"{HERE}/build/refuse.so")
    for test in tests.split():
        try:
            if run([program, test], env=environment, timeout=100):
                return f"caught by {test}"
        except subprocess.TimeoutExpired:
            return f"caught by {test}, which hangs"
    return "SURVIVES"


def try_rust(folder, tests):
    """Says which test catches it, of the crate in this folder."""
    environment = dict(os.environ, SYSMEMD=f"{HERE}/build/sysmemd", SYSMEM_LIB_DIR=os.path.dirname(LIBRARY), CARGO_TARGET_DIR=f"{folder}/target")
    # `timeout` ends what the tests have started, too.
    cargo = ["timeout", "150", "cargo", "test", "--offline", "--quiet", "--manifest-path", f"{folder}/Cargo.toml", "--test"]
    for test in tests:
        made = run(["timeout", "600", *cargo[2:], test, "--no-run"], env=environment)
        if made:
            return f"DOES NOT BUILD: {made}"
        if run([*cargo, test], env=environment):
            return f"caught by {test}"
    return "SURVIVES"


def prepare(room):
    """The crate's words stand beside it."""
    os.symlink(os.path.realpath(f"{HERE}/../bindings"), f"{room}/bindings")


wrong_ones.main("daemons", WRONG, lambda path: f"{HERE}/{path}", prepare, try_one)
