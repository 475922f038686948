// One program of two parts, of which one is compiled without exceptions: the inline namespaces of the headers keep
// their functions apart.
#include "sysmem.hpp"

using namespace sysmem;

static int free_pages_after_a_life() {
    Service service = Service::open().value();
    Client client = service.join("client").value();
    Collection collection = client.open_root("root").value().bind().value();
    collection.set_constraints({2, 0, 4096}).value();
    std::vector<Handle> handles = *collection.take().value();
    bool is_held = service.free_pages() == 14;
    handles.clear();
    collection.close();
    return is_held ? int(service.free_pages()) : -1;
}

#ifdef __cpp_exceptions
int other_part();
int main() {
    try {
        (void)Service::open().value().join().value().collect().value().value(); // nothing waits
        return 1;
    } catch (const std::bad_optional_access &) {
    }
    return free_pages_after_a_life() == 16 && other_part() == 16 ? 0 : 1;
}
#else
int other_part() { return free_pages_after_a_life(); }
#endif
