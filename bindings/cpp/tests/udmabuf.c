// Stands in for /dev/udmabuf where a machine has none, to be loaded before a program: it refuses what the kernel refuses, and
// a dma-buf is one more descriptor of its memfd. The program ends with status 9 if it made no dma-buf, or bracketed no bytes, or
// one not in pairs.
#define _GNU_SOURCE
#include <dlfcn.h>
#include <errno.h>
#include <fcntl.h>
#include <linux/dma-buf.h>
#include <linux/udmabuf.h>
#include <pthread.h>
#include <stdarg.h>
#include <stdlib.h>
#include <string.h>
#include <sys/ioctl.h>
#include <sys/mman.h>
#include <sys/stat.h>
#include <unistd.h>

static pthread_mutex_t lock = PTHREAD_MUTEX_INITIALIZER;
static int device = -1, made, synced, bad;
static struct { ino_t file; int open; } buffers[64];

__attribute__((destructor)) static void told(void) {
    for (int i = 0; i < made; i++) bad |= buffers[i].open;
    if (!made || !synced || bad) _exit(9);
}

static int opened(const char *call, const char *path, int flags, unsigned mode) {
    if (strcmp(path, "/dev/udmabuf") == 0) return device = memfd_create("udmabuf", MFD_CLOEXEC);
    int (*next)(const char *, int, ...) = (int (*)(const char *, int, ...))dlsym(RTLD_NEXT, call);
    return next(path, flags, mode);
}
#define OPEN(name)                                     \
    int name(const char *path, int flags, ...) {       \
        va_list rest;                                  \
        va_start(rest, flags);                         \
        unsigned mode = va_arg(rest, unsigned);        \
        va_end(rest);                                  \
        return opened(#name, path, flags, mode);       \
    }
OPEN(open)
OPEN(open64)

static int refused(void) {
    errno = EINVAL;
    return -1;
}
static int created(const struct udmabuf_create *wanted) {
    int seals = fcntl((int)wanted->memfd, F_GET_SEALS);
    long page = sysconf(_SC_PAGESIZE);
    struct stat file;
    if (wanted->flags & ~(unsigned)UDMABUF_FLAGS_CLOEXEC || wanted->offset % page || wanted->size % page || !wanted->size ||
        seals < 0 || !(seals & F_SEAL_SHRINK) || seals & F_SEAL_WRITE || fstat((int)wanted->memfd, &file) ||
        (off_t)(wanted->offset + wanted->size) > file.st_size || made == 64)
        return refused();
    buffers[made++].file = file.st_ino;
    return fcntl((int)wanted->memfd, wanted->flags & UDMABUF_FLAGS_CLOEXEC ? F_DUPFD_CLOEXEC : F_DUPFD, 0);
}
static int bracketed(int fd, const struct dma_buf_sync *what, int *is_ours) {
    struct stat file;
    for (int i = 0; fstat(fd, &file) == 0 && i < made; i++)
        if (buffers[i].file == file.st_ino) {
            *is_ours = 1;
            int is_end = (what->flags & DMA_BUF_SYNC_END) != 0;
            if (what->flags & ~(__u64)DMA_BUF_SYNC_VALID_FLAGS_MASK || !(what->flags & DMA_BUF_SYNC_RW)) return refused();
            bad |= buffers[i].open != is_end;
            buffers[i].open = !is_end, synced++;
            return 0;
        }
    return -1;
}

int ioctl(int fd, unsigned long request, ...) {
    va_list rest;
    va_start(rest, request);
    void *word = va_arg(rest, void *);
    va_end(rest);
    int is_ours = 0, answer = -1;
    pthread_mutex_lock(&lock);
    if (request == UDMABUF_CREATE && fd == device) is_ours = 1, answer = created(word);
    if (request == DMA_BUF_IOCTL_SYNC) answer = bracketed(fd, word, &is_ours);
    pthread_mutex_unlock(&lock);
    if (is_ours) return answer;
    int (*next)(int, unsigned long, ...) = (int (*)(int, unsigned long, ...))dlsym(RTLD_NEXT, "ioctl");
    return next(fd, request, word);
}
