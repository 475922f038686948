#!/usr/bin/env python3
"""Tries wrong bindings in C++: each has to be caught by a test.

    make && ./wrong.py [WORD..]      takes some ten minutes
    ./wrong.py --apply               says only which of them no longer apply

A wrong binding is a text of a header that is replaced by another. With words, those whose names have one of them are tried.
The last line counts."""
import os
import shutil
import subprocess
import sys

sys.dont_write_bytecode = True
import wrong_ones

HERE = os.path.dirname(os.path.abspath(__file__))
LIBRARY = f"{HERE}/build/libsysmem.a"
HEADERS = {"hpp": "sysmem.hpp", "state": "sysmem/state.hpp", "words": "sysmem/words.hpp", "record": "sysmem/record.hpp",
           "memory": "sysmem/memory.hpp", "cancel": "sysmem/cancel.hpp"}

# the header, what is wrong, the text, and what stands in its place
WRONG = [
    ('state','a vanishing does not shut','            Answer answer = step(a.id, call(SYSMEM_SHUT), 0);\n            if (!answer.is_good()) return is_lost(answer);\n            a.is_shut = true;\n            a.parcels = answer.reply.id;','            a.is_shut = true;'),
    ('state','a vanishing collects nothing','a.parcels = answer.reply.id;','a.parcels = 0;'),
    ('state','a vanishing leaves its ends','if (row.kind == Row::FREE ||','if (row.kind == Row::FREE || (row.kind == SYSMEM_CLOSE && a.is_leaving) ||'),
    ('state','a vanishing leaves its handles','for (bool handles : {false, true})','for (bool handles : {false})'),
    ('state','nothing is put off','if (!give_up(a, row)) put_off(a, row);','(void)give_up(a, row);'),
    ('state','a vanishing is not put off','if (a.is_late || !settle(a)) put_off(a);','settle(a);'),
    ('state','put off and forgotten','if (state.late) state.catch_up();',''),
    ('state','catching up forgets','while (late && settle(*late)) {','while (late) {\n            (void)0;'),
    ('state','callbacks under the mutex','        state.mutex.unlock();\n        while (ready)','        while (ready)'),
    ('state','waiters are not told of a change','                w->bell.tell();',''),
    ('state','a change is not noted','if (is_watched) tell(who, c, tree, answer);','if (recorder) tell(who, c, tree, answer);'),
    ('state','a firing wakes nobody','                watch->bell.tell();',''),
    ('state','the fd is not written','if (watch.fd >= 0) eventfd_write(watch.fd, 1);','(void)watch;'),
    ('state','the fd stays open','close(std::exchange(watch->fd, -1));',''),
    ('state','firings are told from the first on','sysmem_fired_from(&core, seen, some, 16, &count);','sysmem_fired_from(&core, 0, some, 16, &count);'),
    ('state','callbacks in the other order','std::shared_ptr<Due> next = std::exchange(ready->next, std::move(first));\n            first = std::exchange(ready, std::move(next));','std::shared_ptr<Due> next = std::exchange(ready->next, nullptr);\n            std::shared_ptr<Due> *end = &first;\n            while (*end) end = &(*end)->next;\n            *end = std::exchange(ready, std::move(next));'),
    ('state','a dead end closes again','        if (a.is_leaving) return;\n        if (!give_up','        if (a.rows.size() <= row) return;\n        if (!give_up'),
    ('state','a value does not count','--account.values == 0','false'),
    ('state','the core is never closed','if (--state.users == 0) last = std::move(state.self);','--state.users;'),
    ('state','the core goes with the Service','if (--state.users == 0) last','if (state.users-- > 0) last'),
    ('state','gifts wake nobody','        (*at)->given.tell();',''),
    ('state','gifts are not counted','        (*at)->parcels++;',''),
    ('record','labels of live nodes go first','at = has(kept, at->first) ? std::next(at) : labels.erase(at);','at = has(kept, at->first) ? labels.erase(at) : std::next(at);'),
    ('state','labels are never dropped','        keep_only(labels, kept.nodes);\n',''),
    ('state','the origin has no label','        error.label = label(error.origin);\n',''),
    ('hpp','a given end stays ours','        a.state->erase(a, row);\n        a.state->tell_gift(to, detail::Post(node));\n        account = nullptr;\n        return {};\n    }\n    /// Spends the end','        a.state->tell_gift(to, detail::Post(node));\n        account = nullptr;\n        return {};\n    }\n    /// Spends the end'),
    ('hpp','a given end closes','        a.state->erase(a, row);\n        a.state->tell_gift(to, detail::Post(node));\n        account = nullptr;\n        return {};\n    }\n    /// Spends the end','        a.state->tell_gift(to, detail::Post(node));\n        guard.stay();\n        return {};\n    }\n    /// Spends the end'),
    ('hpp','a given handle stays ours','        a.erase(row);\n        a.state->tell_gift(to, detail::Post(buffer(), strength()));','        a.state->tell_gift(to, detail::Post(buffer(), strength()));'),
    ('hpp','a refused gift is lost','if (!answer.is_good()) return guard.stay(), a.state->why(answer);\n        a.state->erase(a, row);','if (!answer.is_good()) return account = nullptr, a.state->why(answer);\n        a.state->erase(a, row);'),
    ('hpp','a refused release closes','            a.rows[row].kind = SYSMEM_RELEASE;',''),
    ('hpp','a release is a close','detail::call(SYSMEM_RELEASE, node), tree)','detail::call(SYSMEM_CLOSE, node), tree)'),
    ('hpp','a refused release is forgotten','            if (answer.code != SYSMEM_DONE && !s.is_lost(answer)) s.put_off(a, row);\n            else s.erase(a, row);','            s.erase(a, row);'),
    ('hpp','the destructor of an end does nothing','    ~End() {\n        if (account) close();\n    }','    ~End() {}'),
    ('hpp','the destructor of a handle does nothing','    ~Handle() {\n        if (account) drop();\n    }','    ~Handle() {}'),
    ('hpp','the destructor of a client does nothing','    ~Client() {\n        if (account) vanish();\n    }','    ~Client() {}'),
    ('hpp','a bound token closes','return Collection(std::move(*this));','Collection bound(std::move(*this));\n        account = bound.account;\n        return bound;'),
    ('state','a wait stays','    while (*at != this) at = &(*at)->next;\n    *at = next;\n    state.is_watched','    state.is_watched'),
    ('hpp','no room is made for a row','        if (!a.has_room()) return Error::fault(SYSMEM_NO_MEMORY);\n        if (s.is_short(a)) return Error::fault(SYSMEM_HISTORY_FULL);\n        detail::Answer answer =\n            a.is_leaving','        detail::Answer answer =\n            a.is_leaving'),
    ('record','a refused label is used','if (r.kind == SYSMEM_NEW_TOKEN) {','if (true) {'),
    ('record','the given label is taken twice','used.count(*wanted) == 0','true'),
    ('record','events are not counted','        event++;\n','        if (event == 0) event++;\n'),
    ('state','an end that is given up late is told of','                r.is = r.told; // of an end that is given up late nothing more is told\n',''),
    ('record','the transcript is not kept','        text += lines;\n',''),
    ('record','the transcript is not handed on','        if (then) then(lines);\n',''),
    ('hpp','a transcript is always kept','if (o.transcript) {','if (true) {'),
    ('record','a handle is told without its index','+ "." + std::to_string(index)','+ ".0"'),
    ('words','the label is lost','(label.empty() ? "" : " (" + label + ")")','""'),
    ('state','a handle in a parcel is not counted','                tree->cells[i].open += open;\n                tree->open += open;','                (void)open;'),
    ('state','a dropped handle counts','        cell->open--;\n',''),
    ('state','an opened handle does not count','        cell->open++;\n        cell->tree->open++;','        cell->tree->open++;'),
    ('state','one handle too many is idle','if (cell.open > (*at)->most) {','if (cell.open > (*at)->most + 1) {'),
    ('state','who waits for an idle buffer is not told','            one->is_told = true;\n',''),
    ('state','a tree stays','if (--cell->tree->open == 0) spare = trees.extract(row.tree);','--cell->tree->open;'),
    ('state','a descriptor stays lit','        a.is_lit = false;\n#ifdef __linux__\n        eventfd_t','        return;\n#ifdef __linux__\n        eventfd_t'),
    ('state','a parcel lights nothing','        light(**at);\n',''),
    ('state','a decided node lights nothing','            row.is = now;\n            light(*at->account);','            row.is = now;'),
    ('state','a firing lights nothing','                    a->fired = watch;\n                    light(*a);','                    a->fired = watch;'),
    ('state','an end that goes keeps its news','if (r.is != r.told) a.news--;',''),
    ('state','firings are kept','if (seen >= 4096 &&','if (seen >= UINT64_MAX &&'),
    ('state','the last events are for everybody','return left < margin;','return false;'),
    ('state','a lost call is not counted','            lost++;\n        } else if','        } else if'),
    ('state','sleepers are not told of late calls','for (Sleeper *s = sleepers; s; s = s->next) s->bell->tell(); // they try it again',''),
    ('state','sleepers do not try late calls','{ Guard tries(state); }',''),
    ('state','callbacks within callbacks','if (Runner *outer = mine()) return outer->append(std::move(first));',''),
    ('hpp','an assignment keeps the old handle','        if (this == &other) return *this;\n        drop();','        if (this == &other) return *this;'),
    ('hpp','an assignment keeps the old end','        if (this == &other) return *this;\n        close();','        if (this == &other) return *this;'),
    ('hpp','a node is told twice','            row.told = row.is;\n            a.news--;','            a.news--;'),
    ('state','a cancelled wait goes on','while (!is_so() && !wait.is_over) {','while (!is_so()) {'),
    ('hpp','a wait for buffers makes a Check at the end','        if (!is_so) return Waited<Allocation>(std::nullopt, wait.is_over);\n        detail::Guard','        detail::Guard'),
    ('hpp','the bytes of another page','return {start + (h.bytes >> 32) * page','return {start + (h.bytes >> 32) * page + page'),
    ('hpp','pending has no room for what fired','        told.fired.reserve(fired);\n',''),
    ('hpp','pending has no room for what fell idle','        told.idle.reserve(idle);\n',''),
    ('memory','a guard never shuts','        ASAN_POISON_MEMORY_REGION(start + at.start * page, at.count * page);','        (void)at;'),
    ('memory','a guard opens the rest of a page','REGION(start + at.start * page, size);','REGION(start + at.start * page, (size + page - 1) / page * page);'),
    ('cancel','a cancel wakes nobody','        bell->ring();\n',''),
    ('cancel','a cancel before the wait is forgotten','        is_over = shared->is_over.load();\n',''),
    ('hpp','the line on a slow wait ends it','s) const noexcept {\n        SYSMEM_TRY {\n            return whom(s);\n        } SYSMEM_CATCH {\n            return {};\n        }\n','s) const {\n        return whom(s);\n'),
    ('hpp','a wait for an idle buffer stays','            *place = std::move(idle->after);\n        }\n    };','        }\n    };'),
    ('state','times are compared in their unit','    if (ticks >= longest)','    if (time >= std::chrono::hours(1 << 20))'),
    ('state','a negative time overflows','    if (!(ticks.count() > 0)) return Clock::now();\n',''),
    ('state','times are cut to seconds','Clock::duration(Clock::rep(ticks.count() + 0.5L))','std::chrono::seconds(std::int64_t(ticks.count() / 1000000000))'),
    ('hpp','a point of time by another clock overflows','wait_for(detail::left(until), stop...)','wait_for(until - Clock::now(), stop...)'),
    ('hpp','a wait for a parcel always was cancelled','return Waited<Parcel>(std::nullopt, wait.is_over);','return Waited<Parcel>(std::nullopt, true);'),
    ('hpp','a wait for a firing never was cancelled','!is_fired && wait.is_over}','false}'),
    ('hpp','a wait for an idle buffer never was cancelled','Waited<void>(is_so, !is_so && wait.is_over)','Waited<void>(is_so)'),
    ('hpp','a wait for an idle buffer was cancelled though it is idle','Waited<void>(is_so, !is_so && wait.is_over)','Waited<void>(is_so, wait.is_over)'),
    ('hpp','a wait for buffers never was cancelled','Waited<Allocation>(std::nullopt, wait.is_over)','Waited<Allocation>(std::nullopt)'),
    ('state','a value of a client that vanished makes a call','        if (a.is_leaving) return vanished(c.kind);\n',''),
    ('state','a client that vanished learns of a full history','return is_short() && !a.is_leaving;','return is_short();'),
    ('words','that the client vanished is not said','            if (is_vanished) return "refused: the client vanished";\n',''),
    ('hpp','whom a dead end waits for','        if (account->is_leaving) return Error::vanished(Refusal::NoSuchEnd);\n',''),
    ('state','the receiver of a parcel is not noted','        (*at)->post(what);\n',''),
    ('state','a collected parcel still waits','        if (++collected < 64','        if (collected < 64'),
    ('state','collected parcels stay in the list','        if (++collected < 64 && collected < posted.size()) return;','        ++collected;\n        return;'),
    ('hpp','a collected end still waits','        a.take_post(detail::Post(key));\n',''),
    ('hpp','a collected handle still waits','            a.take_post(detail::Post(buffer, Strength(r.detail)));\n',''),
    ('hpp','the giver of a parcel is blamed','called(w.receiver ? w.receiver_label : w.holder_label','called(w.holder_label'),
    ('hpp','the receiver has no label','if (to) w.receiver = to->id, w.receiver_label = to->label;','if (to) w.receiver = to->id;'),
    ('state','weak handles have no holder','buffer.index, SYSMEM_WEAK, &h.weak);','buffer.index, SYSMEM_STRONG, &h.weak);'),
    ('state','parcels have any buffer','h.parcels += a.posted[i].is_of(buffer);','h.parcels++;'),
    ('hpp','who has nothing is a holder','            if (h.strong + h.weak + h.parcels > 0) all.push_back','            all.push_back'),
    ('hpp','who is to collect a handle is no holder','if (h.strong + h.weak + h.parcels > 0)','if (h.strong + h.weak > 0)'),
    ('hpp','handles in parcels are not counted for a service','            all += some;\n            state->each_account','            state->each_account'),
    ('cancel','a cancel lights no descriptor','        if (shared->fd >= 0) eventfd_write(shared->fd, 1);\n',''),
    ('cancel','a descriptor after the cancel is dark','eventfd(shared->is_over ? 1 : 0,','eventfd(0,'),
    ('cancel','the descriptor of a Cancel stays open','            if (fd >= 0) ::close(fd);\n',''),
    ('words','a copied result has no value','        if (has_value) ::new (static_cast<void *>(&value)) T(other.value);','        if (false) ::new (static_cast<void *>(&value)) T(other.value);'),
    ('words','an assigned result keeps its kind','        has_value = true;\n','        has_value = false;\n'),
    ('words','a result leaves its value','        if (has_value) value.~T();\n        else error.~Error();','        if (!has_value) error.~Error();'),
    ('words','all events are kept','ring->events.size())] = lines;','ring->events.size())] += lines;'),
    ('words','the last events begin too early','if (count - from > events.size()) from','if (count - from > events.size() + 1) from'),
    ('words','no failure is written','lines.compare(reply, 7, "closed ") && ','true || '),
    ('words','a failure is written again','        ring->written = ring->count;\n',''),
    ('record','labels of forgotten nodes stay','            keep_only(nodes, kept.nodes);\n',''),
]


def build(source, folder, to, words=()):
    """Builds a test over the headers in a folder."""
    words = ["g++", "-O0", "-std=c++17", "-fsanitize=address", f"-I{HERE}/../include", f"-I{folder}", source, LIBRARY, "-pthread", *words, "-o", to]
    made = subprocess.run(words, capture_output=True, text=True)
    return made.stderr if made.returncode else None


def is_replayed(program, player):
    """Whether what the program records is answered as recorded."""
    told = subprocess.run([program], capture_output=True, text=True, timeout=60)
    lines = told.stdout.splitlines()
    calls = "".join(f"{line}\n" for line in lines if line[:1] not in " #")
    replies = "".join(f"{line[2:]}\n" for line in lines if line.startswith("  "))
    played = subprocess.run([player, "256"], input=calls, capture_output=True, text=True, timeout=60)
    return told.returncode == 0 and played.returncode == 0 and played.stdout == replies


def try_one(room, number, header, name, old, new):
    """Says which test catches it."""
    folder = f"{room}/{number}"
    shutil.copytree(f"{HERE}/cpp", folder)
    if old and not wrong_ones.make_wrong(f"{folder}/{HEADERS[header]}", old, new):
        return "DOES NOT APPLY"
    for test in ("values", "realuse", "memory", "crowd", "told", "record"):
        wraps = ["-Wl,--wrap=malloc,--wrap=realloc,--wrap=sysmem_step"] if test == "memory" else []
        program = f"{folder}/{test}.test"
        why = build(f"{folder}/tests/{test}.cpp", folder, program, wraps)
        if why:
            return f"DOES NOT BUILD: {why[:300]}"
        try:
            if test == "record":
                passed = is_replayed(program, f"{room}/player")
            else:
                words = {"crowd": ["4", "60", "80"], "told": ["20000"]}.get(test, [])
                passed = subprocess.run([program, *words], capture_output=True, timeout=120).returncode == 0
        except subprocess.TimeoutExpired:
            return f"caught by {test}, which hangs"
        if not passed:
            return f"caught by {test}"
    return "SURVIVES"


def prepare(room):
    """Builds what plays a transcript, and sees that the binding as it is passes."""
    why = build(f"{HERE}/cpp/tests/script.cpp", f"{HERE}/cpp", f"{room}/player")
    if why:
        sys.exit(why)
    told = try_one(room, "right", "hpp", "nothing", "", "")
    if told != "SURVIVES":
        sys.exit(f"the binding as it is: {told}")


wrong_ones.main("bindings", WRONG, lambda header: f"{HERE}/cpp/{HEADERS[header]}", prepare, try_one)
