// Plays a script of docs/SCRIPT.md through the values of sysmem.hpp. Where a client has no such value, as
// another's end or one that it gave away, the call is made by number. The argument is the pool's pages.
#include "sysmem.hpp"

#include <iostream>
#include <sstream>

namespace sysmem {
inline namespace SYSMEM_INLINE {
struct Raw {
    static Result<sysmem_reply> ask(Service &service, ClientId who, const sysmem_call &call) {
        detail::Guard guard(*service.state);
        detail::Answer answer = service.state->step(who, call, 0);
        if (!answer.is_good()) return service.state->why(answer);
        return answer.reply;
    }
};
} // namespace SYSMEM_INLINE
} // namespace sysmem

using namespace sysmem;
using Words = std::vector<std::string>;

struct Player {
    explicit Player(const Options &options) : service(Service::open(options).value()) {}
    Service service;
    std::map<std::string, Client> clients;
    std::map<std::string, Key> keys;            // of each label of a node
    std::map<std::string, CollectionId> trees;  // its collection
    std::map<std::string, Tracker> trackers;
    std::map<Key, std::string> born;            // the label that a node was born under
    std::map<CollectionId, std::string> roots;
    std::map<TrackerId, std::string> tracked;
    std::vector<Token> tokens;
    std::vector<Collection> collections;
    std::vector<Handle> handles;

    template <class T> T *find(std::vector<T> &all, Key key, ClientId who) {
        for (T &one : all)
            if (one && one.key() == key && one.client() == who) return &one;
        return nullptr;
    }
    Handle *find(Buffer buffer, Strength strength, ClientId who) {
        for (Handle &one : handles)
            if (one && one.buffer() == buffer && one.strength() == strength && one.client() == who)
                return &one;
        return nullptr;
    }
    std::string told(const Error &e) {
        std::string number = std::to_string(e.detail) + " ";
        if (e.kind == Error::Kind::Refused) return "refused " + number + name(e.refusal());
        if (e.kind == Error::Kind::Misused) return "misused " + number + name(e.misuse());
        if (e.kind == Error::Kind::PeerClosed) return "closed " + name(e.cause()) + " " + born[e.origin];
        return "fault " + e.message();
    }
    std::string told(const Result<void> &r) { return r ? "done" : told(r.error()); }
    std::string raw(ClientId who, const sysmem_call &call) {
        auto r = Raw::ask(service, who, call);
        return r ? "done" : told(r.error());
    }
    // A call that no value can make: it is refused, whatever else it says.
    static sysmem_call by_number(const std::string &verb, Key key) {
        static const std::map<std::string, std::uint32_t> kinds = {
            {"dup", SYSMEM_DUPLICATE},       {"attach", SYSMEM_ATTACH_TOKEN},
            {"give", SYSMEM_GIVE},           {"bind", SYSMEM_BIND},
            {"weak", SYSMEM_SET_WEAK},       {"weakok", SYSMEM_SET_WEAK_OK},
            {"check", SYSMEM_CHECK},         {"dispensable", SYSMEM_SET_DISPENSABLE},
            {"take", SYSMEM_TAKE},           {"constrain", SYSMEM_SET_CONSTRAINTS},
            {"release", SYSMEM_RELEASE},     {"close", SYSMEM_CLOSE},
            {"tracknode", SYSMEM_TRACK_NODE}, {"tracklife", SYSMEM_TRACK_LIFETIME}};
        sysmem_call call = detail::call(kinds.at(verb), key);
        call.size = 1;
        return call;
    }
    std::string text(Buffer b) { return roots[b.collection] + "." + std::to_string(b.index); }
    std::string text(Strength s) { return s == Strength::Strong ? "strong" : "weak"; }
    Buffer buffer(const std::string &word) {
        auto dot = word.find('.');
        return {trees[word.substr(0, dot)], std::uint8_t(std::stoi(word.substr(dot + 1)))};
    }
    void bind(const std::string &label, const End &end) {
        keys[label] = end.key();
        trees[label] = end.collection();
        born.emplace(end.key(), label);
        roots.emplace(end.collection(), label);
    }
    std::string token(Result<Token> made, const std::string &label) {
        if (!made) return told(made.error());
        bind(label, *made);
        tokens.push_back(std::move(*made));
        return "token " + label;
    }
    std::string tracker(Result<Tracker> made, const std::string &label) {
        if (!made) return told(made.error());
        tracked[made->id()] = label;
        trackers.emplace(label, std::move(*made));
        return "tracker " + label;
    }
    std::string show(const std::string &what) {
        std::string line = what;
        if (what == "live")
            for (Key key : service.live().value()) line += " " + born[key];
        if (what == "held")
            for (Held h : service.held().value())
                line += " " + text(h.buffer) + " " + std::to_string(h.start) + " " + std::to_string(h.pages);
        if (what == "fired")
            for (Fired f : service.fired().value())
                line += " " + tracked[f.tracker] + " " + std::to_string(f.event);
        if (what == "free") line += " " + std::to_string(service.free_pages());
        return line;
    }
    std::string play(const Words &w) {
        const std::string &verb = w[1];
        if (w[0] == "show") return show(verb);
        if (verb == "join") {
            clients.emplace(w[0], service.join(w[0]).value());
            return "joined";
        }
        Client &client = clients.at(w[0]);
        ClientId who = client.id();
        if (verb == "shut") return "shut " + std::to_string(client.shut().value());
        if (verb == "open") return token(client.open_root(w[2]), w[2]);
        if (verb == "collect") return collect(client, w[2]);
        if (verb == "poll") {
            auto event = trackers.at(w[2]).poll();
            return event ? "fired " + std::to_string(*event) : "quiet";
        }
        if (verb == "duph" || verb == "droph" || verb == "giveh" || verb == "trackweak")
            return on_handle(who, w);
        Key key = keys.at(w[2]);
        Token *t = find(tokens, key, who);
        Collection *c = find(collections, key, who);
        End *end = t ? static_cast<End *>(t) : c;
        if (verb == "sync") return end ? told(end->sync()) : raw(who, detail::call(SYSMEM_SYNC, key));
        if (!end) return raw(who, by_number(verb, key));
        if (verb == "weak") return told(end->set_weak());
        if (verb == "weakok") return told(end->set_weak_ok(w.size() > 3));
        if (verb == "release") return told(std::move(*end).release());
        if (verb == "tracknode") return tracker(end->track_node(), w[3]);
        if (verb == "give") return told(std::move(*end).give(clients.at(w[3]).id()));
        if (verb == "close") {
            end->close();
            return "done";
        }
        if (t && verb == "dup") return token(t->duplicate(w[3]), w[3]);
        if (t && verb == "dispensable") return told(t->set_dispensable());
        if (t && verb == "bind") {
            auto bound = std::move(*t).bind();
            if (!bound) return told(bound.error());
            collections.push_back(std::move(*bound));
            return "done";
        }
        if (!c) return raw(who, detail::call(SYSMEM_CHECK, key));
        if (verb == "attach") return token(c->attach_token(w[3]), w[3]);
        if (verb == "tracklife") return tracker(c->track_lifetime(std::uint32_t(std::stoul(w[3]))), w[4]);
        if (verb == "constrain")
            return told(c->set_constraints({std::uint8_t(std::stoi(w[3])), std::uint8_t(std::stoi(w[4])),
                                            std::uint32_t(std::stoul(w[5]))}));
        if (verb == "check") {
            auto given = c->check();
            if (!given) return told(given.error());
            if (!*given) return "pending";
            return "allocated " + std::to_string((*given)->count) + " " + std::to_string((*given)->size);
        }
        auto taken = c->take();
        if (!taken) return told(taken.error());
        if (!*taken) return "pending";
        std::string line = "taken " + text((*taken)->front().strength());
        for (Handle &h : **taken) {
            line += " " + text(h.buffer());
            handles.push_back(std::move(h));
        }
        return line;
    }
    std::string collect(Client &client, const std::string &label) {
        auto got = client.collect();
        if (!got) return told(got.error());
        if (!*got) return "empty";
        if (Handle *h = std::get_if<Handle>(&**got)) {
            std::string line = "handle " + text(h->buffer()) + " " + text(h->strength());
            handles.push_back(std::move(*h));
            return line;
        }
        if (Token *t = std::get_if<Token>(&**got)) return token(std::move(*t), label);
        Collection &c = *std::get_if<Collection>(&**got);
        bind(label, c);
        collections.push_back(std::move(c));
        return "collection " + label;
    }
    std::string on_handle(ClientId who, const Words &w) {
        Buffer b = buffer(w[2]);
        Strength s = w[1] != "trackweak" && w[3] == "strong" ? Strength::Strong : Strength::Weak;
        Handle *h = find(b, s, who);
        if (w[1] == "droph") {
            if (!h) return raw(who, detail::call(SYSMEM_DROP_HANDLE, b, s));
            h->drop();
            return "done";
        }
        if (!h) return "no value for " + w[1];
        if (w[1] == "trackweak") return tracker(h->track_weak(), w[3]);
        if (w[1] == "giveh") return told(std::move(*h).give(clients.at(w[4]).id()));
        auto more = h->duplicate();
        if (!more) return told(more.error());
        handles.push_back(std::move(*more));
        return "done";
    }
};

int main(int count, char **words) {
    Options options;
    if (count > 1) options.pages = std::uint32_t(std::atoi(words[1]));
    Player player(options);
    for (std::string line; std::getline(std::cin, line);) {
        if (line.empty() || line[0] == '#') continue;
        std::istringstream in(line);
        Words all;
        for (std::string word; in >> word;) all.push_back(word);
        std::cout << player.play(all) << "\n";
    }
    return 0;
}
