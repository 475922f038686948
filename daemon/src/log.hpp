// Lines on standard error for who runs the daemon.
#ifndef SYSMEMD_LOG_HPP
#define SYSMEMD_LOG_HPP

namespace sysmemd {

// Writes a line that begins with "sysmemd: ", at most 20 a second; then one says how many are missing.
void say(const char *format, ...) __attribute__((format(printf, 1, 2)));

} // namespace sysmemd

#endif
