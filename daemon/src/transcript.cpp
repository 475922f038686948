#include "transcript.hpp"

#include "sysmem/record.hpp"

#include <fcntl.h>

namespace sysmemd {

using sysmem::Key;
using sysmem::detail::Kept;
using sysmem::detail::number_of;

// The bindings' recorder.
struct Transcript::Recorder : sysmem::detail::Recorder {
    using sysmem::detail::Recorder::Recorder;
};

Transcript::Transcript(std::FILE *file)
    : file(file), recorder(std::make_unique<Recorder>(
                      [file](std::string_view lines) { std::fwrite(lines.data(), 1, lines.size(), file); })) {}

Transcript::~Transcript() { std::fclose(file); }

std::unique_ptr<Transcript> Transcript::begin(const std::string &name, std::uint32_t pages) {
    std::FILE *file = std::fopen(name.c_str(), "wxe");
    if (!file) return nullptr;
    std::fprintf(file, "# pages %u\n", pages);
    return std::unique_ptr<Transcript>(new Transcript(file));
}

int Transcript::open_again() const {
    char path[40];
    std::snprintf(path, sizeof path, "/proc/self/fd/%d", fileno(file)); // whatever its name leads to by now
    return ::open(path, O_RDONLY | O_CLOEXEC);
}

// What may still be named in a later line, for the recorder's tables.
static Kept kept_of(sysmem_core &core) {
    Kept kept;
    std::uint64_t nodes = 0, buffers = 0;
    sysmem_node no_node;
    sysmem_held_buffer no_buffer;
    if (sysmem_nodes(&core, &no_node, 0, &nodes) || sysmem_held(&core, &no_buffer, 0, &buffers)) return kept;
    std::vector<sysmem_node> all(std::size_t(nodes) + 1);
    std::vector<sysmem_held_buffer> held(std::size_t(buffers) + 1);
    if (sysmem_nodes(&core, all.data(), std::size_t(nodes), &nodes)) return kept;
    if (sysmem_held(&core, held.data(), std::size_t(buffers), &buffers)) return kept;
    for (std::size_t i = 0; i < nodes; i++) {
        kept.nodes.push_back(number_of({all[i].key.slot, all[i].key.generation}));
        kept.collections.push_back(all[i].collection);
        if (all[i].flags & SYSMEM_NODE_FAILED)
            kept.nodes.push_back(number_of({all[i].origin.slot, all[i].origin.generation}));
    }
    for (std::size_t i = 0; i < buffers; i++) kept.collections.push_back(held[i].collection);
    std::sort(kept.nodes.begin(), kept.nodes.end());
    std::sort(kept.collections.begin(), kept.collections.end());
    kept.is_known = true;
    return kept;
}

void Transcript::note(sysmem_core &core, std::uint64_t client, const sysmem_call &call, const sysmem_reply &reply,
                      const std::string *label) {
    recorder->suggest(label);
    recorder->note(client, call, reply);
    recorder->suggest(nullptr);
    if (!recorder->is_large()) return;
    try {
        recorder->forget(kept_of(core));
    } catch (const std::bad_alloc &) { // later
    }
}

} // namespace sysmemd
