// sysmemctl: what a running sysmemd has: clients, nodes, who keeps a buffer, who keeps whom waiting. See sysmemctl(1).
#include "sysmem_remote.hpp"

#include <cstdio>
#include <getopt.h>
#include <iostream>
#include <set>

namespace {

using namespace sysmem::remote;
using Seen = sysmemd_seen;

const char help[] = "Usage: sysmemctl [OPTION..] [status|cores|clients|nodes|buffers|waits|transcript UID]\n"
                    "Shows what a running sysmemd has; status, or no word, all of it but a transcript.\n\n"
                    "  --socket PATH      of the daemon ($SYSMEM_SOCKET, or $XDG_RUNTIME_DIR/sysmem-0)\n"
                    "  --json             one JSON object\n"
                    "  --follow           a transcript goes on until the daemon ends\n"
                    "  --help, --version\n"
                    "Only root and the daemon's own uid may ask.\n";

// ---- Tables, as text and as JSON ----

struct Cell {
    const char *name;
    std::string text;
    bool is_number = false;
};
using Row = std::vector<Cell>;
using Table = std::vector<Row>;

Cell cell(const char *name, std::string text) { return {name, std::move(text), false}; }
Cell cell(const char *name, std::uint64_t number) { return {name, std::to_string(number), true}; }

// Labels and names are whatever their makers wrote: a terminal gets no other bytes than these.
std::string printable(std::string text) {
    for (char &c : text)
        if (c < ' ' || c > '~') c = '?';
    return text.empty() ? "-" : text;
}
std::string quoted(const std::string &text) {
    std::string all = "\"";
    for (char c : text) {
        char code[8];
        std::snprintf(code, sizeof code, "\\u%04x", unsigned(static_cast<unsigned char>(c)));
        all += c < ' ' || c > '~' || c == '"' || c == '\\' ? std::string(code) : std::string(1, c);
    }
    return all + "\"";
}
void print_text(const std::string &name, const Table &table) {
    std::vector<std::size_t> wide;
    for (const Row &row : table)
        for (std::size_t i = 0; i < row.size(); i++) {
            if (wide.size() <= i) wide.push_back(std::strlen(row[i].name));
            wide[i] = std::max(wide[i], printable(row[i].text).size());
        }
    auto line = [&](const Row &row, bool is_head) {
        std::string all = " ";
        for (std::size_t i = 0; i < row.size(); i++) {
            std::string text = is_head ? row[i].name : printable(row[i].text), pad(wide[i] - text.size(), ' ');
            all += " " + (row[i].is_number ? pad + text : i + 1 == row.size() ? text : text + pad);
        }
        std::cout << all << "\n";
    };
    std::cout << name << (table.empty() ? ": none\n" : "\n");
    if (!table.empty()) line(table[0], true);
    for (const Row &row : table) line(row, false);
}
void print_json(const std::string &name, const Table &table) {
    std::cout << "\"" << name << "\": [";
    for (const Row &row : table) {
        std::cout << (&row == &table[0] ? "\n  {" : ",\n  {");
        for (const Cell &one : row)
            std::cout << (&one == &row[0] ? "" : ", ") << "\"" << one.name << "\": " << (one.is_number ? one.text : quoted(one.text));
        std::cout << "}";
    }
    std::cout << "]";
}

// ---- What there is ----

std::string label(const Seen &o) { return std::string(o.label, strnlen(o.label, sizeof o.label)); }
std::string key(sysmem_key k) { return std::to_string(k.slot) + "." + std::to_string(k.generation); }
bool is_same(sysmem_key a, sysmem_key b) { return a.slot == b.slot && a.generation == b.generation; }
bool is_end(const Seen &o) { return o.is == SYSMEMD_TOKEN || o.is == SYSMEMD_COLLECTION; }
bool is_of(const Seen &a, const Seen &b) { return a.core == b.core && a.id == b.id; } // one collection
bool is_live(const Seen &o) { return is_end(o) && !(o.flags & (SYSMEM_NODE_GONE | SYSMEM_NODE_RELEASED)); }
std::string command(std::uint32_t pid) {
    std::string text;
    std::FILE *file = std::fopen(("/proc/" + std::to_string(pid) + "/comm").c_str(), "re");
    for (int c; file && (c = std::fgetc(file)) != EOF && c != '\n';) text += char(c);
    if (file) std::fclose(file);
    return text;
}
// Who last spoke on an object.
void add_who(Row &row, const Seen &o) {
    row.push_back(cell("label", label(o)));
    row.push_back(cell("pid", std::uint64_t(o.pid)));
    row.push_back(cell("uid", std::uint64_t(o.uid)));
    row.push_back(cell("command", command(o.pid)));
}
Row begin(const Seen &o) { return {cell("core", std::uint64_t(o.core)), cell("collection", o.id)}; }

struct View {
    Client &client;
    std::vector<Seen> all;

    Table cores() const {
        std::set<std::uint32_t> uids;
        for (const Seen &o : all) uids.insert(o.core);
        Table table;
        for (std::uint32_t uid : uids) {
            auto s = client.status_of(uid);
            if (!s) continue; // it went meanwhile, or has said no Hello
            table.push_back({cell("core", std::uint64_t(uid)), cell("nodes", std::uint64_t(s->live)),
                             cell("buffers", s->held), cell("pages", std::uint64_t(s->pages)),
                             cell("free", std::uint64_t(s->free_pages)), cell("descriptors", s->descriptors),
                             cell("memories", std::uint64_t(s->memories)), cell("events", s->events)});
        }
        return table;
    }
    // By process: a connection's label, and what the process last used.
    Table clients() const {
        std::map<std::uint32_t, std::array<std::uint64_t, 6>> counts;
        std::map<std::uint32_t, Seen> named;
        for (const Seen &o : all) {
            counts[o.pid][std::min<std::size_t>(o.is, 5)]++;
            if (o.is == SYSMEMD_CONNECTION || !named.count(o.pid)) named[o.pid] = o;
        }
        Table table;
        for (auto &[pid, n] : counts) {
            const Seen &o = named[pid];
            std::uint64_t unread = 0, silent = 0;
            for (const Seen &one : all)
                if (one.pid == pid) unread += (one.state & SYSMEMD_SEEN_UNREAD) != 0, silent += one.state & SYSMEMD_SEEN_SILENT;
            Row row;
            add_who(row, o);
            row.insert(row.end(), {cell("connections", n[SYSMEMD_CONNECTION]), cell("nodes", n[SYSMEMD_TOKEN] + n[SYSMEMD_COLLECTION]),
                                   cell("handles", n[SYSMEMD_LEASE]), cell("trackers", n[SYSMEMD_TRACKER]),
                                   cell("unread", unread), cell("silent", silent)});
            table.push_back(row);
        }
        return table;
    }
    Table nodes() const {
        Table table;
        for (const Seen &o : all) {
            if (!is_end(o)) continue;
            std::string state = o.is == SYSMEMD_TOKEN ? "token" : "bound";
            if (o.flags & SYSMEM_NODE_CONSTRAINED) state = "waits";
            if (o.flags & SYSMEM_NODE_ALLOCATED) state = "allocated";
            if (o.flags & SYSMEM_NODE_FAILED) state = "failed: " + std::string(name(Cause(o.cause))) + ", by " + key(o.origin);
            Row row = begin(o);
            row.insert(row.end(), {cell("node", key(o.key)), cell("parent", key(o.parent))});
            add_who(row, o);
            row.insert(row.end(), {cell("camping", std::uint64_t(o.camping)), cell("at_least", std::uint64_t(o.at_least)),
                                   cell("bytes", std::uint64_t(o.asked)),
                                   cell("is", std::string(o.flags & SYSMEM_NODE_WEAK ? "weak" : "strong") +
                                                  (o.flags & SYSMEM_NODE_DISPENSABLE ? " dispensable" : "") +
                                                  (o.flags & SYSMEM_NODE_ATTACHED ? " attached" : "")),
                                   cell("state", state)});
            table.push_back(row);
        }
        return table;
    }
    // Each buffer that holds pages, with each who keeps it.
    Table buffers() const {
        Table table;
        std::set<std::pair<std::uint32_t, std::uint64_t>> seen;
        for (const Seen &first : all) {
            if ((!is_end(first) && first.is != SYSMEMD_LEASE) || !seen.insert({first.core, first.id}).second) continue;
            for (std::uint8_t i = 0; i < 64; i++)
                for (const Seen &o : all) {
                    if (!(first.held >> i & 1) || !is_of(o, first)) continue;
                    bool is_handle = o.is == SYSMEMD_LEASE && o.index == i;
                    bool is_node = is_live(o) && (o.flags & SYSMEM_NODE_ALLOCATED) && !(o.flags & SYSMEM_NODE_WEAK);
                    if (!is_handle && !is_node) continue;
                    Row row = begin(o);
                    row.insert(row.end(), {cell("buffer", std::uint64_t(i)), cell("bytes", std::uint64_t(first.size)),
                                           cell("kept by", is_node ? "node " + key(o.key) : o.strength ? "weak handle" : "handle")});
                    add_who(row, o);
                    table.push_back(row);
                }
        }
        return table;
    }
    // Whom a pending unit waits for: nodes without constraints, in it and in those above; and who has a buffer that somebody
    // waits for.
    Table waits() const {
        Table table;
        for (const Seen &o : all) {
            if (is_live(o) && (o.flags & SYSMEM_NODE_CONSTRAINED) && !(o.flags & SYSMEM_NODE_ALLOCATED)) {
                sysmem_key head = o.head;
                for (int units = 0; units < 1024; units++) { // what is seen at several times may make a circle
                    sysmem_key above = head;
                    for (const Seen &m : all) {
                        if (!is_end(m) || !is_of(m, o) || !is_same(m.head, head)) continue;
                        above = m.above;
                        if (is_live(m) && !(m.flags & (SYSMEM_NODE_CONSTRAINED | SYSMEM_NODE_ALLOCATED))) table.push_back(wait(o, m, "its constraints"));
                    }
                    if (is_same(above, head)) break;
                    head = above;
                }
            }
            if (o.is != SYSMEMD_LEASE || !(o.state & SYSMEMD_SEEN_WAITS)) continue;
            for (const Seen &m : all)
                if (&m != &o && m.is == SYSMEMD_LEASE && is_of(m, o) && m.index == o.index)
                    table.push_back(wait(o, m, "its handle of buffer " + std::to_string(o.index)));
        }
        return table;
    }
    static Row wait(const Seen &who, const Seen &whom, const std::string &what) {
        Row row = begin(who);
        row.insert(row.end(), {cell("who waits", label(who)), cell("its pid", std::uint64_t(who.pid)), cell("for", what)});
        add_who(row, whom);
        return row;
    }
};

// Copies the file to standard output; with `until`, what comes later too, until that socket ends.
int copy(int file, const Client *until) {
    char some[65536];
    for (bool is_over = false;;) {
        ssize_t n = read(file, some, sizeof some);
        if (n > 0) {
            if (std::fwrite(some, 1, std::size_t(n), stdout) != std::size_t(n)) return 1;
            continue;
        }
        std::fflush(stdout);
        if (n < 0 || !until || is_over) return n < 0;
        usleep(100000);
        is_over = until->ending() != Ending::None; // then what is there by now is the end
    }
}

int fail(const Error &error) {
    bool is_stranger = error.kind == Error::Kind::Refused && error.detail == SYSMEMD_NOT_ALLOWED;
    bool is_nothing = error.kind == Error::Kind::Refused && error.detail == SYSMEMD_NO_SUCH_CORE;
    std::cerr << "sysmemctl: "
              << (is_stranger  ? "only root and the daemon's own uid may ask"
                  : is_nothing ? "this uid has no core, or the daemon runs without --transcripts"
                               : error.message())
              << "\n";
    return 1;
}

} // namespace

int main(int count, char **words) {
    static const option names[] = {{"socket", 1, nullptr, 's'}, {"json", 0, nullptr, 'j'},    {"follow", 0, nullptr, 'f'},
                                   {"help", 0, nullptr, 'h'},   {"version", 0, nullptr, 'v'}, {nullptr, 0, nullptr, 0}};
    std::string path;
    bool is_json = false, follows = false;
    for (int one; (one = getopt_long(count, words, "", names, nullptr)) != -1;) {
        if (one == 's') path = optarg;
        else if (one == 'j') is_json = true;
        else if (one == 'f') follows = true;
        else if (one == 'h') return std::cout << help, 0;
        else if (one == 'v') return std::printf("sysmemctl, protocol %d\n", SYSMEMD_VERSION), 0;
        else return std::cerr << help, 2;
    }
    std::string what = optind < count ? words[optind++] : "status";
    bool is_transcript = what == "transcript";
    std::string uid = is_transcript && optind < count ? words[optind++] : "";
    static const std::pair<const char *, Table (View::*)() const> tables[] = {
        {"cores", &View::cores}, {"clients", &View::clients}, {"nodes", &View::nodes}, {"buffers", &View::buffers}, {"waits", &View::waits}};
    bool is_known = is_transcript ? !uid.empty() && uid.find_first_not_of("0123456789") == std::string::npos && uid.size() < 11
                                  : what == "status";
    for (auto &one : tables) is_known |= what == one.first;
    if (!is_known || optind < count) return std::cerr << help, 2;

    auto client = Client::open(path, "sysmemctl");
    if (!client) return fail(client.error());
    if (is_transcript) {
        auto file = client->transcript_of(std::uint32_t(std::stoul(uid)));
        return file ? copy(*file, follows ? &*client : nullptr) : fail(file.error());
    }
    auto all = client->objects();
    if (!all) return fail(all.error());
    View view{*client, std::move(*all)};
    if (is_json) std::cout << "{";
    bool is_first = true;
    for (auto &[name, table] : tables) {
        if (what != "status" && what != name) continue;
        if (is_json && !std::exchange(is_first, false)) std::cout << ",\n";
        (is_json ? print_json : print_text)(name, (view.*table)());
    }
    if (is_json) std::cout << "}\n";
    return std::cout.flush() ? 0 : 1;
}
