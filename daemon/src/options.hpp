// What the command line says.
#ifndef SYSMEMD_OPTIONS_HPP
#define SYSMEMD_OPTIONS_HPP

#include <cstdint>
#include <string>
#include <sys/types.h>

namespace sysmemd {

struct Options {
    std::string path;      // of the socket; empty: the runtime folder's
    mode_t mode = 0600;    // of the socket
    bool is_old_ok = false; // whether it starts without SO_PASSRIGHTS
    std::uint32_t pages = 65536; // of each uid's pool, 4,096 bytes each
    std::uint32_t nodes = 1024, collections = 256, trackers = 4096, handles = 4096; // of each uid's core
    std::uint32_t connections = 128;  // of each uid
    std::uint32_t descriptors = 8192; // of each uid's objects and buffers
    std::uint32_t uids = 64;          // that have something at one time
    bool reserves = false;            // whether the memory of a buffer is taken from the system with its memfd
    std::uint64_t share = 100000;     // nanoseconds of each uid in a round, and the request that exceeds it
    std::uint64_t patience = 5000000000; // nanoseconds until a connection must have said Hello
    int room = 16384; // SO_SNDBUF of our sockets, which Linux doubles: with a quarter unread, requests wait
    std::uint64_t files = 1024; // descriptors that the process may have
    std::string transcripts;    // a directory, or empty
};

// The options; what is refused ends the program with status 2, and --help and --version with 0.
Options read_options(int count, char **words);

} // namespace sysmemd

#endif
