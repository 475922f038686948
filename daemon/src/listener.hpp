// The socket that clients connect to.
#ifndef SYSMEMD_LISTENER_HPP
#define SYSMEMD_LISTENER_HPP

#include "options.hpp"

#ifndef SO_PASSRIGHTS // Linux 6.16
#define SO_PASSRIGHTS 83
#endif

namespace sysmemd {

struct Listener {
    int fd = -1;
    bool is_ours = false; // we made the path, and remove it
};

// The socket that systemd passed, or a new one at the options' path. What fails ends the program with status 1, or 2 if
// there is no path.
Listener open_listener(const Options &options);
// Tells systemd that we listen.
void notify_ready();

} // namespace sysmemd

#endif
