// The service behind sockets. One thread.
//
// The mapping: one core for each uid that opens roots (a Domain), in which the daemon is the one client; a node's end, an
// open handle and a tracker each are one socket, whose other side whoever has it may use. What a request is about follows
// from the socket that it comes on, and never from its bytes.
//
// Each function that makes an event first takes all that it will need, so that nothing can be refused after the event.
#ifndef SYSMEMD_DAEMON_HPP
#define SYSMEMD_DAEMON_HPP

#include "objects.hpp"
#include "options.hpp"
#include "worker.hpp"

namespace sysmemd {

class Daemon {
public:
    Daemon(Options options, int epoll) : options(std::move(options)), epoll(epoll) {}
    Daemon(const Daemon &) = delete;
    Daemon &operator=(const Daemon &) = delete;
    ~Daemon();

    // What epoll tells at one time is a round, in which each uid's objects get their share of time.
    void begin_round() { round++; }
    // Takes a socket that was accepted, and keeps it or closes it.
    void accept(int fd);
    // What epoll told of this descriptor and stamp.
    void wake(int fd, std::uint32_t stamp, std::uint32_t events);
    // Does what time brings: cuts off who said no Hello, and tries again what the core was refused memory for. Answers in how
    // many milliseconds there is more to do; -1 if nothing is left.
    int catch_up();

    // Readable once memory is there that requests wait for; they go on by finish_errands.
    int errands_fd() const { return worker.fd(); }
    void finish_errands();
    // Tells a peer whom we turn away.
    static void turn_away(int fd);

private:
    // ---- Connections and uids: connections.cpp ----
    bool greet(Connection &c, const sysmemd_request &q);
    bool tell_own_status(Connection &c, const sysmemd_request &q);
    bool tell_status(Connection &c, const sysmemd_request &q, Domain &d);
    void forget_waiting(Connection &c);
    Domain *domain_of(std::uint32_t uid);
    std::unique_ptr<Domain> make_domain(std::uint32_t uid);
    void sweep();
    // Whether the uid may have so many descriptors more, and send one: no uid has more than what it leaves to the others.
    bool has_room(Domain &d, std::size_t more);

    // ---- Sockets: sockets.cpp ----
    std::uint32_t next_stamp() { return ++stamps == 0 ? ++stamps : stamps; } // 0 is the listener's
    bool listen_to(int fd, std::uint32_t stamp);
    bool enter(Object &o, int fd);
    bool pair(int (&two)[2], std::uint64_t &cookie, Object &o);
    // A new object, and the other side of its socket; null if it is refused.
    template <class T> T *make(Domain &d, int &theirs) {
        std::unique_ptr<T> made(new (std::nothrow) T);
        return made && open_pair(d, *made, theirs) ? made.release() : nullptr;
    }
    bool open_pair(Domain &d, Object &o, int &theirs);
    void leave(Object &o);
    void close_side(Object &o);
    void destroy(Object *o);
    void cut(Object &o, std::uint32_t why);
    void choke(Object &o, bool is_choked);
    bool is_full(Object &o);
    void launch(Object &o, std::size_t count);
    void land(Object &o);
    bool may_send(Domain &d, std::size_t more);

    // ---- Messages: messages.cpp ----
    void read_one(Object &o, bool is_over);
    int send(Object &o, const sysmemd_reply &r, const int *fds = nullptr, std::size_t count = 0,
             std::size_t length = sizeof(sysmemd_reply));
    bool deliver(Object &o, const sysmemd_request &q, const sysmemd_reply &r, const int *fds, std::size_t count);
    static sysmemd_reply empty_reply(const Object &o, const sysmemd_request &q, std::uint32_t kind);
    bool fault(Object &o, const sysmemd_request &q, std::uint32_t code);
    bool refuse(Object &o, const sysmemd_request &q, std::uint32_t why);
    sysmemd_reply reply_of(Object &o, const Tree *t, const sysmemd_request &q, const Answer &a);

    // ---- Requests: requests.cpp. False: the message is malformed ----
    struct Op;
    static const Op *find_op(std::uint32_t op, Is on);
    bool serve(Object &o, const sysmemd_request *all, std::size_t count);
    bool offer(Object &o, const sysmemd_request &q);
    bool describe(Object &o, const sysmemd_request &q);
    sysmemd_reply description(const Object &to, const sysmemd_request &q, const Object &o);
    bool claim(Connection &c, const sysmemd_request &q);
    Object *claimed(const sysmemd_request &q, Object *&found);
    void move_to(Object &o, int fd, std::uint64_t cookie, std::uint32_t stamp);

    // ---- Ends: ends.cpp ----
    bool open_root(Connection &c, const sysmemd_request &q);
    bool birth(End &e, const sysmemd_request &q);
    bool finish_birth(Object &o, Domain &d, Tree *t, const sysmemd_request &q, End *made, int theirs);
    bool call_on_end(End &e, const sysmemd_request &q);
    bool track_on_end(End &e, const sysmemd_request &q);
    bool track(Object &o, Tree &t, const sysmemd_request &q, const sysmem_call &c);
    bool release(End &e, const sysmemd_request &q);

    // ---- Leases and the memory of buffers: leases.cpp ----
    struct Taking;
    bool take(End &e, const sysmemd_request &q);
    static bool make_room(Tree &t, std::uint32_t count, std::uint32_t size);
    bool prepare(Domain &d, Tree &t, Taking &taking);
    void keep_taken(End &e, Taking &taking, const Answer &a);
    bool duplicate(Lease &l, const sysmemd_request &q);
    bool track_weak(Lease &l, const sysmemd_request &q);
    bool send_memory(Lease &l, const sysmemd_request &q);
    bool count_open(Lease &l, const sysmemd_request &q);
    bool on_idle(Lease &l, const sysmemd_request &q);
    void keep_lease(Lease &l, Tree &t, std::uint8_t index, std::uint32_t strength, const Who &who);
    void tell_idle(Tree &t, std::uint8_t index);
    bool place_memory(Domain &d, const Tree &t, Buffer &b);
    void forget_memory(Domain &d, const Tree &t, Buffer &b);
    std::uint8_t reserve(Domain &d, Tree &t, Taking &taking);
    void resume(End &e);
    void bring_home(Domain &d, Tree &t);

    // ---- Lists: lists.cpp ----
    bool list_nodes(Connection &c, const sysmemd_request &q);
    bool waits_for(End &e, const sysmemd_request &q);
    bool list(Object &o, const sysmemd_request &q, const std::vector<sysmem_node> &all);

    // ---- What root and the daemon's own uid may ask: inspect.cpp ----
    bool inspect(Connection &c, const sysmemd_request &q);
    Domain *inspected(Connection &c, const sysmemd_request &q);
    bool tell_status_of(Connection &c, const sysmemd_request &q);
    bool send_transcript(Connection &c, const sysmemd_request &q);

    // ---- Events: events.cpp ----
    Answer step(Domain &d, const sysmem_call &c, const std::string *label = nullptr);
    Answer raw_step(Domain &d, const sysmem_call &c, const std::string *label = nullptr);
    void settle(Domain &d, Tree &t, const sysmem_call &c, const Answer &a);
    void look_at(End &e);
    void tell_failed(End &e);
    void name_origin(const Tree &t, Key origin, sysmemd_reply &r);
    void fire(Domain &d);
    void tell_fired(Tracker &t);

    // ---- The end of objects: hangups.cpp ----
    void hang_up(Object &o);
    bool give_up(Object &o);
    bool give_up_end(End &e);
    bool give_up_lease(Lease &l);
    void put_off(Object &o);
    void catch_up(Domain &d);
    void remember(Tree &t, const End &e);
    void drop_if_empty(Domain &d, Tree &t);

    Options options;
    int epoll;
    Worker worker;
    std::uint64_t errands = 0; // given to the worker so far
    int room = 0; // what the system made of options.room
    std::uint32_t stamps = 0;
    std::uint64_t round = 0;
    std::uint64_t strangers_round = 0, strangers_spent = 0; // nanoseconds of those without a Hello
    std::uint64_t transcripts = 0;
    std::size_t aloft = 0; // descriptors that were sent, and may be unread
    std::uint64_t files = 16; // that the process has, and some that it needs for a moment
    bool is_to_sweep = false;
    // Of the last event that failed ends: all of them mostly have one origin.
    struct {
        bool is_known = false;
        Key key;
        Who who;
    } origin;
    std::vector<Object *> by_fd;
    std::unordered_map<std::uint64_t, Object *> by_cookie;
    std::unordered_map<std::uint32_t, std::unique_ptr<Domain>> domains;
    std::unordered_map<std::uint32_t, std::uint32_t> callers; // how many connections each uid has
    Connection *first_waiting = nullptr, *last_waiting = nullptr; // those without a Hello
};

std::uint64_t now(); // nanoseconds
sysmem_call call_on(std::uint32_t kind, Key key = {});
sysmem_call call_on(std::uint32_t kind, const Lease &lease);

} // namespace sysmemd

#endif
