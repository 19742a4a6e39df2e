/* A library that is loaded before all others, and writes down what a process does to the files of a folder, so that a loss of power can be
   made of that: what was not synced may be there or not. It syncs nothing itself.

   RECORD_FOLDER: the folder, whose name all that is recorded begins with. RECORD_LOG: where records go.
   RECORD_FAIL: while a file of this name is there, each sync fails with EIO of a file whose path has the text in it.

   A record: its kind, and seven bytes of zeros; five 64-bit numbers: inode, offset, length of data, length of a name, length of another; then these.
   Kinds: 'W' data at an offset, 'T' a length, 'S' a sync of an inode, 'C' a new name, 'R' a name in the place of another, 'U' a name less,
   'D' a sync of a folder. */
#define _GNU_SOURCE
#include <errno.h>
#include <fcntl.h>
#include <pthread.h>
#include <stdarg.h>
#include <stdint.h>
#include <stdio.h>
#include <stdlib.h>
#include <string.h>
#include <sys/stat.h>
#include <sys/syscall.h>
#include <sys/uio.h>
#include <unistd.h>

static pthread_mutex_t lock = PTHREAD_MUTEX_INITIALIZER;
static int out = -1;

struct head { char kind[8]; uint64_t inode, offset, length, name, other; };

/* Whether a path is of the folder, and of a file that outlives the process. */
static int is_kept(const char *path) {
    const char *folder = getenv("RECORD_FOLDER");
    size_t length = strlen(path);
    if (folder == NULL || strncmp(path, folder, strlen(folder)) != 0)
        return 0;
    return !(length > 4 && strcmp(path + length - 4, "-shm") == 0);
}

static int path_of(int file, char *path, size_t room) {
    char link[64];
    snprintf(link, sizeof link, "/proc/self/fd/%d", file);
    ssize_t length = readlink(link, path, room - 1);
    if (length < 0)
        return 0;
    path[length] = 0;
    return is_kept(path);
}

static uint64_t inode_of(int file) {
    struct stat about;
    return fstat(file, &about) == 0 ? about.st_ino : 0;
}

static void record(char kind, uint64_t inode, uint64_t offset, const void *data, size_t length, const char *name, const char *other) {
    struct head head = {{kind}, inode, offset, length, name ? strlen(name) : 0, other ? strlen(other) : 0};
    struct iovec parts[4] = {{&head, sizeof head}, {(void *)data, length}, {(void *)name, head.name}, {(void *)other, head.other}};
    if (out < 0) {
        const char *path = getenv("RECORD_LOG");
        out = path ? (int)syscall(SYS_openat, AT_FDCWD, path, O_WRONLY | O_APPEND | O_CREAT | O_CLOEXEC, 0600) : -1;
    }
    if (out >= 0)
        syscall(SYS_writev, out, parts, 4);
}


static ssize_t written(int file, const void *data, size_t length, off_t offset) {
    char path[4096];
    if (!path_of(file, path, sizeof path))
        return offset < 0 ? syscall(SYS_write, file, data, length) : syscall(SYS_pwrite64, file, data, length, offset);
    pthread_mutex_lock(&lock);
    off_t at = offset < 0 ? lseek(file, 0, SEEK_CUR) : offset;
    ssize_t done = offset < 0 ? syscall(SYS_write, file, data, length) : syscall(SYS_pwrite64, file, data, length, offset);
    int error = errno;
    if (done > 0)
        record('W', inode_of(file), at, data, done, NULL, NULL);
    pthread_mutex_unlock(&lock);
    errno = error;
    return done;
}

ssize_t write(int file, const void *data, size_t length) { return written(file, data, length, -1); }
ssize_t pwrite(int file, const void *data, size_t length, off_t offset) { return written(file, data, length, offset); }
ssize_t pwrite64(int file, const void *data, size_t length, off64_t offset) { return written(file, data, length, offset); }

static int cut(int file, off_t length) {
    char path[4096];
    int is_ours = path_of(file, path, sizeof path);
    pthread_mutex_lock(&lock);
    int status = (int)syscall(SYS_ftruncate, file, length);
    int error = errno;
    if (is_ours && status == 0)
        record('T', inode_of(file), length, NULL, 0, NULL, NULL);
    pthread_mutex_unlock(&lock);
    errno = error;
    return status;
}

int ftruncate(int file, off_t length) { return cut(file, length); }
int ftruncate64(int file, off64_t length) { return cut(file, length); }

static int fails(const char *path) {
    char part[256];
    const char *name = getenv("RECORD_FAIL");
    int file = name ? (int)syscall(SYS_openat, AT_FDCWD, name, O_RDONLY | O_CLOEXEC, 0) : -1;
    if (file < 0)
        return 0;
    ssize_t length = syscall(SYS_read, file, part, sizeof part - 1);
    syscall(SYS_close, file);
    part[length < 0 ? 0 : length] = 0;
    return strstr(path, part) != NULL;
}

static int synced(int file) {
    char path[4096];
    struct stat about;
    if (!path_of(file, path, sizeof path))
        return (int)syscall(SYS_fsync, file);
    if (fails(path)) {
        errno = EIO;
        return -1;
    }
    pthread_mutex_lock(&lock);
    int is_folder = fstat(file, &about) == 0 && S_ISDIR(about.st_mode);
    record(is_folder ? 'D' : 'S', inode_of(file), 0, NULL, 0, path, NULL);
    pthread_mutex_unlock(&lock);
    return 0;
}

int fsync(int file) { return synced(file); }
int fdatasync(int file) { return synced(file); }

static int opened(int folder, const char *path, int flags, mode_t mode) {
    char found[4096];
    struct stat about;
    int is_new = (flags & O_CREAT) && fstatat(folder, path, &about, 0) != 0;
    pthread_mutex_lock(&lock);
    int file = (int)syscall(SYS_openat, folder, path, flags, mode);
    int error = errno;
    if (file >= 0 && path_of(file, found, sizeof found)) {
        if (is_new)
            record('C', inode_of(file), 0, NULL, 0, found, NULL);
        else if (flags & O_TRUNC)
            record('T', inode_of(file), 0, NULL, 0, NULL, NULL);
    }
    pthread_mutex_unlock(&lock);
    errno = error;
    return file;
}

#define MODE va_list more; va_start(more, flags); mode_t mode = (flags & (O_CREAT | O_TMPFILE)) ? va_arg(more, mode_t) : 0; va_end(more)
int open(const char *path, int flags, ...) { MODE; return opened(AT_FDCWD, path, flags, mode); }
int open64(const char *path, int flags, ...) { MODE; return opened(AT_FDCWD, path, flags, mode); }
int openat(int folder, const char *path, int flags, ...) { MODE; return opened(folder, path, flags, mode); }
int openat64(int folder, const char *path, int flags, ...) { MODE; return opened(folder, path, flags, mode); }

int rename(const char *old, const char *new) {
    pthread_mutex_lock(&lock);
    int status = (int)syscall(SYS_rename, old, new);
    int error = errno;
    if (status == 0 && is_kept(old))
        record('R', 0, 0, NULL, 0, old, new);
    pthread_mutex_unlock(&lock);
    errno = error;
    return status;
}

int unlink(const char *path) {
    pthread_mutex_lock(&lock);
    int status = (int)syscall(SYS_unlink, path);
    int error = errno;
    if (status == 0 && is_kept(path))
        record('U', 0, 0, NULL, 0, path, NULL);
    pthread_mutex_unlock(&lock);
    errno = error;
    return status;
}
