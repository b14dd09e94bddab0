/* Refuses a process one call, as `make memory` and `make failures` want it: this library is loaded
   before the C library.

   REFUSED_CALL says of which kind (memory, read, write or sync) and REFUSED_NUMBER which one of
   these, from 1. With REFUSED_LEAST only requests for at least so many bytes of memory count.
   REFUSED_MARK names a file that is made when it is refused: so whoever set these knows whether it was
   called at all. Where a write was refused the device is full: all later ones
   to the same file are refused too, unless REFUSED_ONCE is set: then it takes bytes again, but what was
   gathered for standard output was to be dropped, so the process is aborted if it writes there again.
   With REFUSED_MOST a write moves so many bytes at most.

   REFUSED_COUNTS names a file that gets, when the process ends, how many requests for memory it made, and the
   most bytes that it had at once. While a block is moved, both its old and its new bytes count.

   A file that was synced must not be written to later: the process is aborted if it is.

   With REFUSED_CALL touch, wait or append nothing is refused: each of the first REFUSED_NUMBER times
   that the process has read a regular file to its end, the file's time of change becomes a nanosecond
   later, or a second, or a byte is appended to it, in which case that time stays. */

#define _GNU_SOURCE
#include <dlfcn.h>
#include <errno.h>
#include <fcntl.h>
#include <malloc.h>
#include <stdio.h>
#include <stdlib.h>
#include <string.h>
#include <sys/stat.h>
#include <sys/types.h>
#include <unistd.h>

/* The C library's own, by the names that it keeps for libraries that replace them. */
void *__libc_malloc(size_t size);
void *__libc_calloc(size_t count, size_t size);
void *__libc_realloc(void *block, size_t size);
void __libc_free(void *block);

static const char *refused_call = "";
static long refused_number;
static size_t most_moved = (size_t)-1;
static size_t least_asked;
static long made;
static long requests;
static long held;
static long most_held;
static int full_file = -1;
static int is_full_once;
static int is_output_dropped;
static struct stat synced;
static int is_synced;
static ssize_t (*next_read)(int, void *, size_t);
static ssize_t (*next_write)(int, const void *, size_t);
static int (*next_sync)(int);

__attribute__((constructor)) static void begin(void)
{
	const char *call = getenv("REFUSED_CALL");
	const char *number = getenv("REFUSED_NUMBER");
	const char *most = getenv("REFUSED_MOST");
	const char *least = getenv("REFUSED_LEAST");

	next_read = dlsym(RTLD_NEXT, "read");
	next_write = dlsym(RTLD_NEXT, "write");
	next_sync = dlsym(RTLD_NEXT, "fsync");
	refused_call = call ? call : "";
	refused_number = number ? atol(number) : 0;
	most_moved = most ? (size_t)atol(most) : most_moved;
	least_asked = least ? (size_t)atol(least) : 0;
	is_full_once = getenv("REFUSED_ONCE") != NULL;
}

__attribute__((destructor)) static void end(void)
{
	const char *name = getenv("REFUSED_COUNTS");
	char counts[64];
	int file;

	if (!name)
		return;
	snprintf(counts, sizeof counts, "%ld %ld\n", requests, most_held);
	file = open(name, O_WRONLY | O_CREAT | O_TRUNC, 0600);
	if (next_write(file, counts, strlen(counts)) < 0)
		abort();
	close(file);
}

/* Counts a call of this kind, and says whether it is the one; the error is then this one. */
static int is_refused(const char *call, int error)
{
	const char *mark = getenv("REFUSED_MARK");

	if (strcmp(call, refused_call) != 0 || ++made != refused_number)
		return 0;
	if (mark)
		close(open(mark, O_WRONLY | O_CREAT, 0600));
	errno = error;
	return 1;
}

static int is_memory_refused(size_t size)
{
	requests++;
	return size >= least_asked && is_refused("memory", ENOMEM);
}

/* Counts the bytes of a new block. */
static void *counted(void *block)
{
	held += (long)malloc_usable_size(block);
	if (held > most_held)
		most_held = held;
	return block;
}

void *malloc(size_t size)
{
	return is_memory_refused(size) ? NULL : counted(__libc_malloc(size));
}

void *calloc(size_t count, size_t size)
{
	return is_memory_refused(count * size) ? NULL : counted(__libc_calloc(count, size));
}

void *realloc(void *block, size_t size)
{
	long old = (long)malloc_usable_size(block);
	void *moved = is_memory_refused(size) ? NULL : __libc_realloc(block, size);

	counted(moved);
	if (moved)
		held -= old;
	return moved;
}

void free(void *block)
{
	held -= (long)malloc_usable_size(block);
	__libc_free(block);
}

/* Sets the time of change, with so many seconds more and so many nanoseconds. */
static void touch(int file, const struct stat *status, long seconds, long nanoseconds)
{
	struct timespec times[2] = {status->st_atim, status->st_mtim};

	times[1].tv_sec += seconds;
	times[1].tv_nsec += times[1].tv_nsec < 999999999 ? nanoseconds : -nanoseconds;
	futimens(file, times);
}

static void append(int file, const struct stat *status)
{
	char name[64];
	int again;

	snprintf(name, sizeof name, "/proc/self/fd/%d", file);
	again = open(name, O_WRONLY | O_APPEND);
	next_write(again, "", 1);
	touch(again, status, 0, 0);
	close(again);
}

/* Changes a regular file that was read to its end, if that is asked for. */
static void change(int file)
{
	int is_append = strcmp(refused_call, "append") == 0;
	int is_wait = strcmp(refused_call, "wait") == 0;
	struct stat status;

	if (!is_append && !is_wait && strcmp(refused_call, "touch") != 0)
		return;
	if (fstat(file, &status) != 0 || !S_ISREG(status.st_mode) || ++made > refused_number)
		return;
	if (is_append)
		append(file, &status);
	else
		touch(file, &status, is_wait, !is_wait);
}

ssize_t read(int file, void *to, size_t count)
{
	ssize_t moved;

	if (is_refused("read", EIO))
		return -1;
	moved = next_read(file, to, count);
	if (moved == 0 && count > 0)
		change(file);
	return moved;
}

/* Whether this is the file that was synced last. */
static int was_synced(int file)
{
	struct stat status;

	return is_synced && fstat(file, &status) == 0 && status.st_dev == synced.st_dev
		&& status.st_ino == synced.st_ino;
}

ssize_t write(int file, const void *from, size_t count)
{
	int refused = is_refused("write", ENOSPC);

	if (was_synced(file))
		abort();
	if (is_output_dropped && file == STDOUT_FILENO)
		abort();
	if (refused && is_full_once)
		is_output_dropped = file == STDOUT_FILENO;
	else if (refused)
		full_file = file;
	if (refused || file == full_file) {
		errno = ENOSPC;
		return -1;
	}
	return next_write(file, from, count < most_moved ? count : most_moved);
}

int fsync(int file)
{
	if (is_refused("sync", EIO))
		return -1;
	is_synced = fstat(file, &synced) == 0;
	return next_sync(file);
}
