// The events of one core in a file, for `sysmem explain` and `sysmem check`.
#ifndef SYSMEMD_TRANSCRIPT_HPP
#define SYSMEMD_TRANSCRIPT_HPP

#include "sysmem.h"

#include <cstdio>
#include <memory>
#include <string>

namespace sysmemd {

class Transcript {
public:
    // Begins the file of this name; null if it can't be made.
    static std::unique_ptr<Transcript> begin(const std::string &name, std::uint32_t pages);
    ~Transcript();
    // Writes what was noted to the file.
    void flush() { std::fflush(file); }
    // A new descriptor of the file, for reading; -1 if the system gives none.
    int open_again() const;
    // Writes one event; the label is that of what it makes, or null.
    void note(sysmem_core &core, std::uint64_t client, const sysmem_call &call, const sysmem_reply &reply,
              const std::string *label);

private:
    struct Recorder;
    explicit Transcript(std::FILE *file);
    std::FILE *file;
    std::unique_ptr<Recorder> recorder;
};

} // namespace sysmemd

#endif
