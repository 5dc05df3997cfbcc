/* Files of the command bev: inputs read whole, outputs replaced whole or not at all, and messages. */
#define _XOPEN_SOURCE 700
#include "bev.h"
#include <errno.h>
#include <fcntl.h>
#include <stdlib.h>
#include <string.h>
#include <sys/stat.h>
#include <unistd.h>

/* A standard file that is closed is taken up, so that no other file gets its number; using it fails as before. */
void hold_standard_files(void)
{
    for (int fd = 0; fd <= 2; fd++)
        if (fcntl(fd, F_GETFD) == -1 && errno == EBADF)
            (void)!open("/dev/null", fd == 0 ? O_WRONLY : O_RDONLY);
}

int complain(const char *name, const char *cause)
{
    fprintf(stderr, "bev: %s: %s\n", name, cause);
    return FAILED;
}

int complain_errno(const char *name)
{
    return complain(name, strerror(errno));
}

/* Whether all that was printed has been written; false after a message. */
bool printed(void)
{
    if (!ferror(stdout))
        errno = 0;
    if (fflush(stdout) == 0 && !ferror(stdout))
        return true;
    complain("standard output", errno ? strerror(errno) : "a write failed");
    return false;
}

bool exists(const char *path)
{
    struct stat st;
    return stat(path, &st) == 0 || errno != ENOENT;
}

/* Reads up to `most` bytes; the buffer doubles as they come. */
static bool read_all(int fd, size_t most, struct bytes *into)
{
    size_t room = 0;
    for (;;) {
        if (into->len == room) {
            room = room ? 2 * room : 65536;
            uint8_t *more = realloc(into->at, room);
            if (!more)
                return false;
            into->at = more;
        }
        size_t wanted = (room < most ? room : most) - into->len;
        ssize_t n = wanted ? read(fd, into->at + into->len, wanted) : 0;
        if (n == 0)
            return true;
        if (n < 0 && errno != EINTR)
            return false;
        into->len += n > 0 ? (size_t)n : 0;
    }
}

/* The first `most` bytes of a file, or of standard input; false after a message. */
bool load(const char *path, size_t most, struct bytes *into)
{
    bool standard = strcmp(path, "-") == 0;
    struct stat st;
    *into = (struct bytes){ .name = standard ? "standard input" : path };
    int fd = standard ? 0 : open(path, O_RDONLY);
    bool good = fd >= 0 && fstat(fd, &st) == 0 && read_all(fd, most, into);
    if (good) {
        into->regular = S_ISREG(st.st_mode);
        into->device = st.st_dev;
        into->inode = st.st_ino;
    } else {
        complain_errno(into->name);
    }
    if (fd > 0)
        close(fd);
    return good;
}

static bool is_input(const struct stat *st, const struct bytes *const inputs[])
{
    for (; inputs && *inputs; inputs++)
        if ((*inputs)->regular && (*inputs)->device == st->st_dev && (*inputs)->inode == st->st_ino)
            return true;
    return false;
}

/* The name of a new file in the target's directory, for mkstemp. */
static char *name_beside(const char *target)
{
    static const char name[] = ".bev-XXXXXX";
    const char *slash = strrchr(target, '/');
    size_t folder = slash ? (size_t)(slash - target) + 1 : 0;
    char *beside = malloc(folder + sizeof name);
    if (beside) {
        memcpy(beside, target, folder);
        memcpy(beside + folder, name, sizeof name);
    }
    return beside;
}

static mode_t mode_of_new_file(void)
{
    mode_t mask = umask(0);
    umask(mask);
    return 0666 & ~mask;
}

/* Opens the file that becomes the output: one beside a regular or missing target, any other target itself. */
static bool open_output(struct output *o, const struct stat *old)
{
    o->target = old ? realpath(o->name, NULL) : strdup(o->name);
    if (!o->target)
        return false;
    if (old && !S_ISREG(old->st_mode)) {
        o->fd = open(o->target, O_WRONLY);
        return o->fd >= 0;
    }
    if (old && access(o->target, W_OK) != 0)
        return false;
    char *beside = name_beside(o->target);
    o->fd = beside ? mkstemp(beside) : -1;
    if (o->fd < 0) {
        free(beside);
        return false;
    }
    o->beside = beside;
    return fchmod(o->fd, old ? old->st_mode & 07777 : mode_of_new_file()) == 0;
}

static bool write_all(int fd, const uint8_t *at, size_t len)
{
    while (len > 0) {
        ssize_t n = write(fd, at, len);
        if (n < 0 && errno != EINTR)
            return false;
        at += n > 0 ? n : 0;
        len -= n > 0 ? (size_t)n : 0;
    }
    return true;
}

/* Closes what is open and removes what is not committed. */
static void drop(struct output *o)
{
    if (o->fd >= 0)
        close(o->fd);
    if (o->beside)
        unlink(o->beside);
    free(o->beside);
    free(o->target);
}

/* Writes an output that stands once it is committed; false after a message. */
bool prepare(const char *path, const struct bytes *const inputs[], const uint8_t *at, size_t len, struct output *o)
{
    struct stat st;
    bool there = stat(path, &st) == 0;
    *o = (struct output){ .name = path, .fd = -1 };
    if (there && is_input(&st, inputs)) {
        complain(path, "is also the input; the output must be another file");
        return false;
    }
    if (there && S_ISDIR(st.st_mode))
        errno = EISDIR;
    else if ((there || (errno == ENOENT && *path)) && open_output(o, there ? &st : NULL) && write_all(o->fd, at, len) && (!o->beside || fsync(o->fd) == 0))
        return true;
    complain_errno(path);
    drop(o);
    return false;
}

/* Puts a prepared output in place and answers the status; but where what was printed could not be written, or the output cannot be
 * put in place, nothing changes. */
int commit(struct output *o, int status)
{
    if (!printed()) {
        drop(o);
        return FAILED;
    }
    int fd = o->fd;
    o->fd = -1;
    if (close(fd) != 0 || (o->beside && rename(o->beside, o->target) != 0)) {
        complain_errno(o->name);
        drop(o);
        return FAILED;
    }
    free(o->beside);
    free(o->target);
    return status;
}
