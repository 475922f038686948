#include "options.hpp"

#include "sysmemd_protocol.h"

#include <cstdio>
#include <cstdlib>
#include <cstring>
#include <getopt.h>

namespace sysmemd {

static const char help[] =
    "Usage: sysmemd [OPTION..]\n"
    "Serves buffer lifetimes to other processes.\n\n"
    "  --socket PATH        where it listens ($XDG_RUNTIME_DIR/sysmem-0)\n"
    "  --mode OCTAL         access rights of the socket (600)\n"
    "  --pages N            pages of each uid's pool, of 4,096 bytes (65536)\n"
    "  --nodes N            kept nodes of each uid, to 1024 (1024)\n"
    "  --collections N      kept collections of each uid, to 256 (256)\n"
    "  --trackers N         waiting trackers of each uid, to 4096 (4096)\n"
    "  --handles N          open handles of one buffer and strength (4096)\n"
    "  --connections N      connections of each uid (128)\n"
    "  --descriptors N      ends, leases, trackers, buffers of each uid (8192)\n"
    "  --uids N             uids at one time (64)\n"
    "  --share N            microseconds of each uid in a round of requests (100)\n"
    "  --reserve            takes the memory of a buffer before it is handed out\n"
    "  --transcripts DIR    writes the events of each uid's core there\n"
    "  --allow-old-kernel   starts before Linux 6.16, where a client can stop it\n"
    "  --help, --version\n"
    "With LISTEN_FDS it serves descriptor 3 (systemd), and makes no socket.\n";

[[noreturn]] static void refuse(const char *what) {
    std::fprintf(stderr, "sysmemd: %s\n", what);
    std::exit(2);
}

static std::uint32_t number(const char *what, std::uint32_t most) {
    char *end = nullptr;
    unsigned long n = std::strtoul(optarg, &end, 10);
    if (*optarg >= '0' && *optarg <= '9' && !*end && n >= 1 && n <= most) return std::uint32_t(n);
    std::fprintf(stderr, "sysmemd: --%s must be 1 to %u\n", what, most);
    std::exit(2);
}

static mode_t rights() {
    char *end = nullptr;
    unsigned long bits = std::strtoul(optarg, &end, 8);
    if (*optarg < '0' || *optarg > '7' || *end || bits > 0777) refuse("--mode must be octal, to 777");
    return mode_t(bits);
}

enum Name { SOCKET = 256, MODE, PAGES, NODES, COLLECTIONS, TRACKERS, HANDLES, CONNECTIONS, DESCRIPTORS, UIDS, SHARE, RESERVE,
            TRANSCRIPTS, OLD, HELP, VERSION };

static void read_one(Options &to, int name) {
    switch (name) {
    case SOCKET: to.path = optarg; break;
    case MODE: to.mode = rights(); break;
    case PAGES: to.pages = number("pages", 1 << 20); break;
    case NODES: to.nodes = number("nodes", 1024); break;
    case COLLECTIONS: to.collections = number("collections", 256); break;
    case TRACKERS: to.trackers = number("trackers", 4096); break;
    case HANDLES: to.handles = number("handles", UINT32_MAX); break;
    case CONNECTIONS: to.connections = number("connections", 1 << 20); break;
    case DESCRIPTORS: to.descriptors = number("descriptors", 1 << 20); break;
    case UIDS: to.uids = number("uids", 1 << 20); break;
    case SHARE: to.share = number("share", 1000000) * std::uint64_t(1000); break;
    case RESERVE: to.reserves = true; break;
    case TRANSCRIPTS: to.transcripts = optarg; break;
    case OLD: to.is_old_ok = true; break;
    case HELP: std::fputs(help, stdout); std::exit(0);
    case VERSION:
        std::printf("sysmemd %d.%d.%d, protocol %d\n", SYSMEM_VERSION_MAJOR, SYSMEM_VERSION_MINOR, SYSMEM_VERSION_PATCH,
                    SYSMEMD_VERSION);
        std::exit(0);
    default: std::fputs(help, stderr); std::exit(2);
    }
}

Options read_options(int count, char **words) {
    static const option names[] = {
        {"socket", 1, nullptr, SOCKET},           {"mode", 1, nullptr, MODE},
        {"pages", 1, nullptr, PAGES},             {"nodes", 1, nullptr, NODES},
        {"collections", 1, nullptr, COLLECTIONS}, {"trackers", 1, nullptr, TRACKERS},
        {"handles", 1, nullptr, HANDLES},         {"connections", 1, nullptr, CONNECTIONS},
        {"descriptors", 1, nullptr, DESCRIPTORS}, {"uids", 1, nullptr, UIDS},
        {"share", 1, nullptr, SHARE},             {"reserve", 0, nullptr, RESERVE},
        {"transcripts", 1, nullptr, TRANSCRIPTS}, {"allow-old-kernel", 0, nullptr, OLD},
        {"help", 0, nullptr, HELP},               {"version", 0, nullptr, VERSION},
        {nullptr, 0, nullptr, 0}};
    Options options;
    for (int one; (one = getopt_long(count, words, "", names, nullptr)) != -1;) read_one(options, one);
    if (optind < count) read_one(options, '?');
    if (!options.path.empty()) return options;
    const char *run = std::getenv("XDG_RUNTIME_DIR");
    if (run) options.path = std::string(run) + "/sysmem-0";
    return options;
}

} // namespace sysmemd
