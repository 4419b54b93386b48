/* What newlib wants of a system (sdk/libc): the console, memory, files that are kept in RAM, a lock for malloc, and for
 * each task an errno and streams of its own. */
#include <errno.h>
#include <fcntl.h>
#include <reent.h>
#include <stdlib.h>
#include <string.h>
#include <sys/stat.h>
#include <sys/time.h>
#include <sys/times.h>
#include <unistd.h>
#include "format.h"

#define TASKS 255
#define FILES 64
#define OPEN 16
#define FIRST 3                         /* descriptors 0 to 2 are the console */

/* Addresses that are numbers: sizes that start.S and the linker script give. */
extern char board_end[];
extern char board_ram[];
extern char board_areas[];

static SPIN_LOCK memory;
static char *heap_end = board_end;

/* The lock of malloc: between processors, tasks and handlers. Who has it may take it again, as realloc does. A task that
 * is CPU-locked, and a handler, isn't interrupted, so its processor isn't locked once more, nor unlocked. `owner` is
 * read without the lock too: whatever others write there, nobody but the caller writes the caller's own stack. */
static const void *owner;
static UINT depth;
static BOOL unlocks;

/* The lowest address of its stack tells who calls: start.S keeps it in $k0. */
static const void *caller(void)
{
    const void *stack;
    __asm__ volatile("move %0, $26" : "=r"(stack));
    return stack;
}

void __malloc_lock(struct _reent *unused)
{
    ID task;
    (void)unused;
    if (__atomic_load_n(&owner, __ATOMIC_ACQUIRE) == caller()) {
        depth++;
        return;
    }
    BOOL is_interruptible = get_tid(&task) == E_OK && loc_cpu() == E_OK;
    spin_lock(&memory);
    __atomic_store_n(&owner, caller(), __ATOMIC_RELEASE);
    depth = 1;
    unlocks = is_interruptible;
}

void __malloc_unlock(struct _reent *unused)
{
    (void)unused;
    if (--depth > 0)
        return;
    BOOL is_interruptible = unlocks;
    __atomic_store_n(&owner, NULL, __ATOMIC_RELEASE);
    spin_unlock(&memory);
    if (is_interruptible)
        unl_cpu();
}

/* The heap is what lies between the program and the stacks and memory pools. malloc calls it, under its lock. */
void *_sbrk(ptrdiff_t more)
{
    char *before = heap_end;
    char *limit = (char *)(0x80000000 + (UINT)board_ram - (UINT)board_areas);
    if (more > limit - before) {
        errno = ENOMEM;
        return (void *)-1;
    }
    heap_end = before + more;
    return before;
}

/* Handlers and CPU-locked tasks share one, since they can't ask who runs. */
struct _reent *__getreent(void)
{
    static struct _reent *reents[TASKS + 1];
#pragma GCC diagnostic ignored "-Wmissing-field-initializers"
    static struct _reent shared = _REENT_INIT(shared);
    ID task;
    if (get_tid(&task) != E_OK)
        return &shared;
    if (reents[task] == NULL) {
        struct _reent *own = &shared;
        __malloc_lock(NULL);
        char *before = heap_end;
        char *start = (char *)(((UINT)before + 7) & ~7u);
        char *limit = (char *)(0x80000000 + (UINT)board_ram - (UINT)board_areas);
        if ((UINT)(limit - start) >= sizeof(struct _reent) && start <= limit) {
            own = (struct _reent *)start;
            heap_end = start + sizeof(struct _reent);
        }
        __malloc_unlock(NULL);
        if (own != &shared)
            _REENT_INIT_PTR(own);
        reents[task] = own;
    }
    return reents[task];
}

/* Files are kept in RAM, and are gone when the board is off. They are for one task at a time. */
static struct file {
    char *name;
    char *bytes;
    UINT length;
} files[FILES];

static struct open_file {
    struct file *file;
    UINT position;
    INT flags;
} opened[OPEN];

static struct file *file_of(const char *name)
{
    for (INT i = 0; i < FILES; i++)
        if (files[i].name != NULL && strcmp(files[i].name, name) == 0)
            return &files[i];
    return NULL;
}

static INT refused(INT error)
{
    errno = error;
    return -1;
}

static struct file *new_file(const char *name)
{
    for (INT i = 0; i < FILES; i++)
        if (files[i].name == NULL) {
            files[i] = (struct file){ strdup(name), NULL, 0 };
            return files[i].name == NULL ? NULL : &files[i];
        }
    return NULL;
}

int _open(const char *name, int flags, int mode)
{
    struct file *file = file_of(name);
    INT i = 0;
    (void)mode;
    while (i < OPEN && opened[i].file != NULL)
        i++;
    if (i == OPEN)
        return refused(EMFILE);
    if (file == NULL && !(flags & O_CREAT))
        return refused(ENOENT);
    if (file != NULL && (flags & O_CREAT) && (flags & O_EXCL))
        return refused(EEXIST);
    if (file == NULL && (file = new_file(name)) == NULL)
        return refused(ENOSPC);
    if (flags & O_TRUNC)
        file->length = 0;
    opened[i] = (struct open_file){ file, 0, flags };
    return FIRST + i;
}

static struct open_file *open_file(INT descriptor)
{
    INT i = descriptor - FIRST;
    return i >= 0 && i < OPEN && opened[i].file != NULL ? &opened[i] : NULL;
}

int _close(int descriptor)
{
    struct open_file *it = open_file(descriptor);
    if (it == NULL)
        return descriptor < FIRST ? 0 : refused(EBADF);
    it->file = NULL;
    return 0;
}

static INT write_console(const char *bytes, UINT count)
{
    for (UINT i = 0; i < count; i++) {
        ER answer = try_put_chr(bytes[i]);
        if (answer != E_OK) {
            board_lose(__builtin_return_address(0), count - i);
            return refused(answer == E_CTX ? EPERM : ENOSPC);
        }
    }
    return (INT)count;
}

int _write(int descriptor, const void *bytes, size_t count)
{
    struct open_file *it = open_file(descriptor);
    if (it == NULL)
        return descriptor < FIRST ? write_console(bytes, count) : refused(EBADF);
    if (it->flags & O_APPEND)
        it->position = it->file->length;
    if (it->position + count > it->file->length) {
        char *more = realloc(it->file->bytes, it->position + count);
        if (more == NULL && count > 0)
            return refused(ENOSPC);
        if (it->position > it->file->length)
            memset(more + it->file->length, 0, it->position - it->file->length);
        it->file->bytes = more;
        it->file->length = it->position + count;
    }
    memcpy(it->file->bytes + it->position, bytes, count);
    it->position += count;
    return (INT)count;
}

int _read(int descriptor, void *bytes, size_t count)
{
    struct open_file *it = open_file(descriptor);
    if (it == NULL)
        return descriptor < FIRST ? 0 : refused(EBADF);
    UINT left = it->position < it->file->length ? it->file->length - it->position : 0;
    if (count > left)
        count = left;
    memcpy(bytes, it->file->bytes + it->position, count);
    it->position += count;
    return (INT)count;
}

off_t _lseek(int descriptor, off_t offset, int whence)
{
    struct open_file *it = open_file(descriptor);
    if (it == NULL)
        return refused(descriptor < FIRST ? ESPIPE : EBADF);
    off_t from = whence == SEEK_SET ? 0 : (off_t)(whence == SEEK_CUR ? it->position : it->file->length);
    if (from + offset < 0)
        return refused(EINVAL);
    it->position = (UINT)(from + offset);
    return from + offset;
}

int _fstat(int descriptor, struct stat *about)
{
    struct open_file *it = open_file(descriptor);
    if (it == NULL && descriptor >= FIRST)
        return refused(EBADF);
    memset(about, 0, sizeof *about);
    about->st_mode = it == NULL ? S_IFCHR : S_IFREG;
    about->st_size = it == NULL ? 0 : (off_t)it->file->length;
    return 0;
}

int _stat(const char *name, struct stat *about)
{
    struct file *file = file_of(name);
    if (file == NULL)
        return refused(ENOENT);
    memset(about, 0, sizeof *about);
    about->st_mode = S_IFREG;
    about->st_size = (off_t)file->length;
    return 0;
}

int _isatty(int descriptor)
{
    return descriptor < FIRST ? 1 : refused(ENOTTY);
}

int _unlink(const char *name)
{
    struct file *file = file_of(name);
    if (file == NULL)
        return refused(ENOENT);
    for (INT i = 0; i < OPEN; i++)
        if (opened[i].file == file)
            return refused(EBUSY);
    free(file->name);
    free(file->bytes);
    file->name = NULL;
    return 0;
}

int _link(const char *from, const char *to)
{
    (void)from;
    (void)to;
    return refused(EMLINK);
}

/* The kernel has no call that answers the tick. */
int _gettimeofday(struct timeval *now, void *zone)
{
    (void)now;
    (void)zone;
    return refused(ENOSYS);
}

clock_t _times(struct tms *times)
{
    (void)times;
    return (clock_t)refused(ENOSYS);
}

int _getpid(void)
{
    return 1;
}

int _kill(int process, int signal)
{
    (void)process;
    (void)signal;
    return refused(EINVAL);
}

/* exit, and the end of abort: the board is off. In a handler only its processor ends. */
void _exit(int status)
{
    (void)status;
    unl_cpu();
    ext_ker();
    board_trap();
}

void __assert_func(const char *file, int line, const char *function, const char *condition)
{
    (void)function;
    board_stop(file, line, condition);
}
