// After each call of four clients that make what calls they like, the descriptors, what they tell of each end, the
// parcels, and the counts of handles are compared with the core; in the second half also the bytes of a memory. The argument is
// the number of events.
#include "life.hpp"

static bool is_told(std::uint64_t events, const std::shared_ptr<Memory> &memory) {
    Options o;
    o.pages = 256;
    o.memory = memory;
    Service service = Service::open(o).value();
    std::uint64_t lit = 0, dark = 0, mapped = 0;
    for (unsigned round = 1; service.events() < events; round++) {
        std::mt19937 dice(round);
        std::vector<std::unique_ptr<Life>> lives;
        for (int i = 0; i < 4; i++) lives.push_back(begin(service, dice));
        for (int step = 0; step < 1500; step++) {
            Life &life = *lives[dice() % 4];
            life.step();
            bool is_so = Raw::are_lit_rightly(service, lit, dark) && Raw::are_counted_rightly(service) &&
                         Raw::are_posted_rightly(service);
            if (memory && !life.handles.empty()) {
                mapped++;
                const Handle &handle = life.handles.back();
                is_so &= Raw::are_there(memory, handle);
                auto open = handle.open_handles();
                is_so &= !open || *open == service.open_handles(handle.buffer());
            }
            if (!is_so) {
                std::printf("round %u, step %d: the binding tells something else than the core\n", round, step);
                return false;
            }
        }
        for (auto &life : lives) life->end();
    }
    std::printf("%llu events, %llu times a descriptor was readable, %llu times not, %llu times bytes: "
                "as the core has it\n",
                (unsigned long long)service.events(), (unsigned long long)lit, (unsigned long long)dark,
                (unsigned long long)mapped);
    return is_nothing_left(service, o.pages) && lit > 1000 && dark > 1000 && (!memory || mapped > 1000);
}

int main(int count, char **words) {
    std::uint64_t events = count > 1 ? std::strtoull(words[1], nullptr, 10) : 100000;
    return is_told(events / 2, nullptr) && is_told(events / 2, Memory::open(256).value()) ? 0 : 1;
}
