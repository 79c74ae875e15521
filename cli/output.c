/* An answer as it goes out, whole or not at all: see output.h. */
#include <errno.h>
#include <fcntl.h>
#include <limits.h>
#include <poll.h>
#include <signal.h>
#include <stdbool.h>
#include <stdio.h>
#include <stdlib.h>
#include <string.h>
#include <sys/stat.h>
#include <unistd.h>

#include "output.h"

enum { MOST_LINKS = 40, MOST_ATTEMPTS = 1000, ALL_PERMISSIONS = 07777 };

static enum status could_not_be_written(const char *what)
{
    say("%s could not be written: %s", what, strerror(errno));
    return STATUS_FILES;
}

/* Of no bytes at all it asks too, so that a standard output that is closed is seen whatever the answer is. */
static bool write_all(int descriptor, const uint8_t *bytes, size_t length)
{
    do {
        ssize_t count = write(descriptor, bytes, length);
        struct pollfd waiting = {descriptor, POLLOUT, 0};
        if (count >= 0) {
            bytes += count;
            length -= (size_t)count;
        } else if (errno == EAGAIN || errno == EWOULDBLOCK) {
            poll(&waiting, 1, -1);
        } else if (errno != EINTR) {
            return false;
        }
    } while (length > 0);
    return true;
}

/* Some file systems say only when a file is closed that they could not keep it. */
static enum status write_standard_output(const struct bytes *answer)
{
    bool written = write_all(STDOUT_FILENO, answer->at, answer->length) && close(STDOUT_FILENO) == 0;
    return written ? STATUS_ACCEPTED : could_not_be_written("standard output");
}

/* How many bytes of a name are its folder's, with the slash. */
static size_t folder_length(const char *name)
{
    const char *slash = strrchr(name, '/');
    return slash == NULL ? 0 : (size_t)(slash - name) + 1;
}

/* The first bytes of a name and others after them, to be freed. */
static char *joined(const char *name, size_t length, const char *after)
{
    char *both = memory_for(NULL, length + strlen(after) + 1);
    memcpy(both, name, length);
    memcpy(both + length, after, strlen(after) + 1);
    return both;
}

/* What a link points to, or NULL. */
static char *target_of(const char *link)
{
    char target[PATH_MAX];
    ssize_t length = readlink(link, target, sizeof target - 1);
    if (length < 0) return NULL;
    target[length] = 0;
    return joined(link, target[0] == '/' ? 0 : folder_length(link), target);
}

/* The name of the file that is meant where links have been followed, to be freed; NULL where they are too many. A link may point to
 * nothing: then that is the file to be made. Links among the folders need no care: the system follows them. */
static char *real_name(const char *file)
{
    char *name = joined("", 0, file);
    for (int links = 0; links < MOST_LINKS; links++) {
        char *target = target_of(name);
        if (target == NULL) return name;
        free(name);
        name = target;
    }
    free(name);
    errno = ELOOP;
    return NULL;
}

/* A new file in the folder of `name`, whose own name is put at `made`, to be freed. That is a short one, since `name` may be as long as
 * names can be. -1 where there is none. */
static int open_beside(const char *name, mode_t mode, char **made)
{
    char own[64];
    for (int attempt = 0; attempt < MOST_ATTEMPTS; attempt++) {
        snprintf(own, sizeof own, ".nos-%ld-%d", (long)getpid(), attempt);
        *made = joined(name, folder_length(name), own);
        int descriptor = open(*made, O_WRONLY | O_CREAT | O_EXCL, mode);
        if (descriptor >= 0) return descriptor;
        int why = errno;
        free(*made);
        errno = why;
        if (why != EEXIST) return -1;
    }
    return -1;
}

/* Owner first: changing it takes bits away. A file that cannot have the old owner does not act as that owner either. */
static bool take_permissions(int descriptor, const struct stat *old)
{
    mode_t mode = old->st_mode & ALL_PERMISSIONS;
    if (fchown(descriptor, old->st_uid, old->st_gid) != 0) mode &= ~(mode_t)(S_ISUID | S_ISGID);
    return fchmod(descriptor, mode) == 0;
}

/* Makes the file and gives it its name; `old` is NULL where none is there. Where anything fails the file is removed, and errno says
 * why. */
static bool make_and_rename(const char *name, const struct stat *old, const struct bytes *answer)
{
    char *made;
    int descriptor = open_beside(name, old == NULL ? 0666 : 0600, &made);
    if (descriptor < 0) return false;
    bool whole = (old == NULL || take_permissions(descriptor, old)) && write_all(descriptor, answer->at, answer->length)
        && fsync(descriptor) == 0;
    int why = errno;
    if (close(descriptor) != 0 && whole) {
        whole = false;
        why = errno;
    }
    if (whole && rename(made, name) != 0) {
        whole = false;
        why = errno;
    }
    if (!whole) unlink(made);
    free(made);
    errno = why;
    return whole;
}

/* The same, while the signals by which a user or the system ends a program have to wait: none of them comes between the file's making
 * and its name, or its removal. */
static bool replace(const char *name, const struct stat *old, const struct bytes *answer)
{
    static const int ending[] = {SIGHUP, SIGINT, SIGQUIT, SIGTERM};
    sigset_t waiting, before;
    sigemptyset(&waiting);
    for (size_t i = 0; i < sizeof ending / sizeof ending[0]; i++) sigaddset(&waiting, ending[i]);
    sigprocmask(SIG_BLOCK, &waiting, &before);
    bool replaced = make_and_rename(name, old, answer);
    int why = errno;
    sigprocmask(SIG_SETMASK, &before, NULL);
    errno = why;
    return replaced;
}

/* A file that may not be written is not replaced either, though its folder would allow it: somebody protected it. */
static enum status write_file(const char *file, const struct bytes *answer)
{
    struct stat old;
    bool is_there = stat(file, &old) == 0;
    if (!is_there && errno != ENOENT) return could_not_be_written(file);
    if (is_there && !S_ISREG(old.st_mode)) {
        say("%s could not be written: it is there, and is no plain file", file);
        return STATUS_FILES;
    }
    if (is_there && faccessat(AT_FDCWD, file, W_OK, AT_EACCESS) != 0) return could_not_be_written(file);
    char *name = real_name(file);
    bool replaced = name != NULL && replace(name, is_there ? &old : NULL, answer);
    enum status status = replaced ? STATUS_ACCEPTED : could_not_be_written(file);
    free(name);
    return status;
}

enum status output_write(const char *file, struct bytes *answer)
{
    bytes_reserve(answer, 0);
    return file == NULL ? write_standard_output(answer) : write_file(file, answer);
}

enum status output_write_line(const char *file, struct bytes *answer)
{
    bytes_append(answer, "\n", 1);
    enum status status = output_write(file, answer);
    bytes_free(answer);
    return status;
}
