/* Lets calls of a program to the C library fail. FAIL_CALLS is a kind of call, and the numbers, from 1, of the first and the
   last of them that fail, as "recv 20 35". At the program's end the count of each kind is written to the file that
   COUNT_CALLS names, a line each. failing.py builds this, and has it loaded before the C library. */
#define _GNU_SOURCE
#include <dlfcn.h>
#include <errno.h>
#include <stdio.h>
#include <stdlib.h>
#include <string.h>
#include <sys/socket.h>
#include <unistd.h>

/* requests for memory; reads of standard input; writes to standard output and to standard error; and what sockets do */
enum kind { MEMORY, TAKE, PUT, SAY, OPEN, SEND, RECV, KINDS };

static const char *const names[KINDS] = {"memory", "take", "put", "say", "open", "send", "recv"};
static long counts[KINDS], first = -1, last;
static char failing[16];

static int is_failing(enum kind kind) {
    if (first < 0) {
        const char *told = getenv("FAIL_CALLS");
        first = 0;
        if (told && sscanf(told, "%15s %ld %ld", failing, &first, &last) != 3) {
            abort();
        }
    }
    long number = ++counts[kind];
    return first <= number && number <= last && !strcmp(failing, names[kind]);
}

__attribute__((destructor)) static void tell(void) {
    const char *name = getenv("COUNT_CALLS");
    long told[KINDS];
    memcpy(told, counts, sizeof told);
    FILE *file = name ? fopen(name, "w") : NULL;
    if (file) {
        for (int kind = 0; kind < KINDS; kind++) {
            fprintf(file, "%s %ld\n", names[kind], told[kind]);
        }
        fclose(file);
    }
}

/* the next definition of a function, which is the C library's */
#define NEXT(name) (*(__typeof__(&name))dlsym(RTLD_NEXT, #name))

static int fault(void) {
    errno = EIO;
    return -1;
}

void *malloc(size_t size) { return is_failing(MEMORY) ? NULL : NEXT(malloc)(size); }

void *realloc(void *old, size_t size) { return is_failing(MEMORY) ? NULL : NEXT(realloc)(old, size); }

void *calloc(size_t number, size_t size) { return is_failing(MEMORY) ? NULL : NEXT(calloc)(number, size); }

void *aligned_alloc(size_t alignment, size_t size) {
    return is_failing(MEMORY) ? NULL : NEXT(aligned_alloc)(alignment, size);
}

int posix_memalign(void **to, size_t alignment, size_t size) {
    return is_failing(MEMORY) ? ENOMEM : NEXT(posix_memalign)(to, alignment, size);
}

ssize_t read(int file, void *to, size_t size) {
    return file == 0 && is_failing(TAKE) ? fault() : NEXT(read)(file, to, size);
}

ssize_t write(int file, const void *from, size_t size) {
    return (file == 1 && is_failing(PUT)) || (file == 2 && is_failing(SAY)) ? fault() : NEXT(write)(file, from, size);
}

int bind(int socket, const struct sockaddr *to, socklen_t size) {
    return is_failing(OPEN) ? fault() : NEXT(bind)(socket, to, size);
}

ssize_t sendto(int socket, const void *from, size_t size, int flags, const struct sockaddr *to, socklen_t length) {
    return is_failing(SEND) ? fault() : NEXT(sendto)(socket, from, size, flags, to, length);
}

ssize_t recvfrom(int socket, void *to, size_t size, int flags, struct sockaddr *from, socklen_t *length) {
    return is_failing(RECV) ? fault() : NEXT(recvfrom)(socket, to, size, flags, from, length);
}
