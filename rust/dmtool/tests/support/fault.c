/* Loaded before the C library by LD_PRELOAD: lets calls of a program fail, or something happen there. FAULT is a list
 * "CALL WHAT,CALL WHAT,..":
 *   CALL 37     the call fails with error 37 each time; with 4 (interrupted) only the first time
 *   CALL kill   the process is killed there
 *   CALL run    the command RUN is run first, once
 * "tmpfile" is the opening of a file without a name, "create" of a new one by its name, "edit" of a file for reading and writing. */
#define _GNU_SOURCE
#include <dlfcn.h>
#include <errno.h>
#include <fcntl.h>
#include <signal.h>
#include <stdarg.h>
#include <stdlib.h>
#include <string.h>
#include <sys/file.h>
#include <unistd.h>

#define REAL(name) ((__typeof__(&name))dlsym(RTLD_NEXT, #name))

/* What FAULT says of a call; null where it says nothing. */
static const char *fault_of(const char *call)
{
    size_t length = strlen(call);
    const char *fault = getenv("FAULT");
    while (fault && (strncmp(fault, call, length) || fault[length] != ' ')) {
        fault = strchr(fault, ',');
        fault += fault != NULL;
    }
    return fault ? fault + length + 1 : NULL;
}

static int fault(const char *call)
{
    static int interrupted, ran;
    const char *what = fault_of(call);
    if (!what)
        return 0;
    if (!strncmp(what, "kill", 4))
        kill(getpid(), SIGKILL);
    if (!strncmp(what, "run", 3)) {
        unsetenv("LD_PRELOAD");
        if (!ran++ && system(getenv("RUN")))
            abort();
        return 0;
    }
    errno = atoi(what);
    return errno != EINTR || !interrupted++;
}

int flock(int file, int operation)
{
    return fault("flock") ? -1 : REAL(flock)(file, operation);
}

int fsync(int file)
{
    return fault("fsync") ? -1 : REAL(fsync)(file);
}

int rename(const char *old, const char *new)
{
    return fault("rename") ? -1 : REAL(rename)(old, new);
}

int renameat2(int old_folder, const char *old, int new_folder, const char *new, unsigned flags)
{
    return fault("renameat2") ? -1 : REAL(renameat2)(old_folder, old, new_folder, new, flags);
}

int linkat(int old_folder, const char *old, int new_folder, const char *new, int flags)
{
    return fault("linkat") ? -1 : REAL(linkat)(old_folder, old, new_folder, new, flags);
}

int unlink(const char *path)
{
    return fault("unlink") ? -1 : REAL(unlink)(path);
}

int open64(const char *path, int flags, ...)
{
    va_list rest;
    va_start(rest, flags);
    mode_t mode = va_arg(rest, mode_t);
    va_end(rest);
    if ((flags & O_TMPFILE) == O_TMPFILE && fault("tmpfile"))
        return -1;
    if ((flags & O_CREAT) && fault("create"))
        return -1;
    if ((flags & O_ACCMODE) == O_RDWR && fault("edit"))
        return -1;
    return REAL(open64)(path, flags, mode);
}
