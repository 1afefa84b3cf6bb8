/* Opens a file by its path for liba2l: its bytes are mapped, so that an address reads only the pages that it needs. This
 * is no part of the library, and can be changed to read files in another way.
 *
 * A file that changes while it is mapped may end the process by SIGBUS. It needs POSIX; a strict -std=c11 will do. */
#ifndef A2L_FILE_H
#define A2L_FILE_H

#include <errno.h>
#include <fcntl.h>
#include <sys/mman.h>
#include <sys/stat.h>
#include <unistd.h>

#include "a2l.h"

/* A strict -std=c11 hides O_CLOEXEC; the file is open but for a moment. */
#ifdef O_CLOEXEC
#define A2L_FILE_CLOSED_BY_EXEC O_CLOEXEC
#else
#define A2L_FILE_CLOSED_BY_EXEC 0
#endif

/* A file that is mapped. */
typedef struct a2l_file {
    const uint8_t *bytes;
    size_t length;
} a2l_file;

/* Maps a file. False where it can't be read or is no regular file; then errno says why. */
static inline bool a2l_file_map(const char *path, a2l_file *file)
{
    struct stat about;
    void *bytes;
    /* O_NONBLOCK, not to wait for the other end of a pipe, which is no regular file. */
    int descriptor = open(path, O_RDONLY | O_NONBLOCK | A2L_FILE_CLOSED_BY_EXEC);

    if (descriptor < 0)
        return false;
    if (fstat(descriptor, &about) != 0 || !S_ISREG(about.st_mode)) {
        int reason = S_ISDIR(about.st_mode) ? EISDIR : EINVAL;
        close(descriptor);
        errno = reason;
        return false;
    }
    file->length = (size_t)about.st_size;
    /* A mapping has a byte at least. */
    file->bytes = (const uint8_t *)"";
    if (file->length > 0) {
        bytes = mmap(NULL, file->length, PROT_READ, MAP_PRIVATE, descriptor, 0);
        if (bytes == MAP_FAILED) {
            int reason = errno;
            close(descriptor);
            errno = reason;
            return false;
        }
        file->bytes = (const uint8_t *)bytes;
    }
    close(descriptor);
    return true;
}

/* Frees a file that was mapped, after the last handle over it was closed. */
static inline void a2l_file_unmap(a2l_file *file)
{
    if (file->length > 0)
        munmap((void *)(uintptr_t)file->bytes, file->length);
    file->length = 0;
}

#endif
