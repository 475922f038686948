// What tests see of a service.
#include "sysmem.hpp"

#include <thread>

namespace sysmem {
inline namespace SYSMEM_INLINE {
struct Raw {
    static std::size_t recorded(Service &service) {
        detail::Guard guard(*service.state);
        return service.state->recorder->size();
    }
    // Waits until so many threads sleep in waits.
    static void await_sleepers(Service &service, int count = 1) {
        auto are_there = [&] {
            detail::Guard guard(*service.state);
            int missing = count;
            for (detail::Sleeper *s = service.state->sleepers; s; s = s->next) missing--;
            return missing <= 0;
        };
        while (!are_there()) std::this_thread::yield();
    }
};
} // namespace SYSMEM_INLINE
} // namespace sysmem
