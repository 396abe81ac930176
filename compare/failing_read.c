/* A read that fails half way, for compare/program: loaded before the C library, it gives a file four bytes at a time, and an error in the place of the
 * third part. A file of fewer bytes ends before that. */
#include <errno.h>
#include <sys/syscall.h>
#include <sys/types.h>
#include <unistd.h>

ssize_t read(int descriptor, void *buffer, size_t length)
{
    if (lseek(descriptor, 0, SEEK_CUR) >= 8) {
        errno = EIO;
        return -1;
    }
    return syscall(SYS_read, descriptor, buffer, length < 4 ? length : 4);
}
