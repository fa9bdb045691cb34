/*
 * What the kit has compiled for x86-64 and glibc alone, for a proved program on Linux on arm64 or with musl: the words of the command line, the environment,
 * and errno, by the contracts of the kit's crate `os`. Nothing here is proved; tests run it.
 */
#include <errno.h>
#include <stddef.h>
#include <stdint.h>
#include <stdlib.h>

static int count;
static char **words;

static void keep(int argc, char **argv, char **envp) {
    (void)envp;
    count = argc;
    words = argv;
}

#ifdef __GLIBC__
/* glibc gives each function of .init_array what main gets. */
__attribute__((section(".init_array"), used)) static void (*const at_start)(int, char **, char **) = keep;
#else
/* musl gives them nothing: link with -Wl,--wrap=main. */
int __real_main(int argc, char **argv, char **envp);
int __wrap_main(int argc, char **argv, char **envp) {
    keep(argc, argv, envp);
    return __real_main(argc, argv, envp);
}
#endif

size_t rattle_arg_count(void) { return (size_t)count; }

/* Puts a text at the start of the room: its length; -1 where there is none, -2 where it doesn't fit, and then the room is full. */
static int64_t put(const char *from, uint8_t *to, size_t room) {
    size_t i;
    if (!from) return -1;
    for (i = 0; from[i]; i++) {
        if (i == room) return -2;
        to[i] = (uint8_t)from[i];
    }
    return (int64_t)i;
}

int64_t rattle_arg(size_t place, uint8_t *to, size_t room) { return put(place < (size_t)count ? words[place] : NULL, to, room); }
int64_t rattle_env(const char *name, uint8_t *to, size_t room) { return put(getenv(name), to, room); }
int32_t rattle_errno(void) { return errno; }
void rattle_set_errno(int32_t number) { errno = number; }
