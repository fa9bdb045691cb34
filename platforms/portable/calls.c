
/* A stack and the module's data, for a call without a board. */
struct small {
    u8 stack[SMALL_STACK], data[sizeof data];
};

static uintptr_t open_small(struct small *small) {
    memcpy(small->data, data, sizeof data);
    return (uintptr_t)small->data - DATA_AT;
}

/* Where C's lengths are not of 64 bits, the module's are put beside them. */
#if SIZE_MAX > 0xffffffffu
typedef char is_a_repair[sizeof(struct jatshegi_repair) == sizeof(struct repair) && offsetof(struct jatshegi_repair, kind) == 24 ? 1 : -1];
#define SIZE_IN(name) u64 name##_at = address(base, name);
#define SIZE_OUT(name)
#define REPAIRS_IN(name, places) u64 name##_at = address(base, name);
#define REPAIRS_OUT(name, places, count)
#else
#define SIZE_IN(name) u64 name##_64 = *name, name##_at = address(base, &name##_64);
#define SIZE_OUT(name) *name = (size_t)name##_64;
#define REPAIRS_IN(name, places)                                                                                         \
    struct repair *name##_64 = places <= SIZE_MAX / sizeof *name##_64 ? malloc((places ? places : 1) * sizeof *name##_64) : NULL; \
    u64 name##_at = address(base, name##_64);                                                                            \
    if (!name##_64) {                                                                                                    \
        close_memory(base);                                                                                              \
        return JATSHEGI_NO_MEMORY;                                                                                       \
    }
#define REPAIRS_OUT(name, places, count)                                                                                 \
    if (status == JATSHEGI_OK || status == JATSHEGI_NO_ROOM)                                                             \
        for (size_t i = 0; i < places && i < *count; i++) {                                                              \
            name[i].place = (size_t)name##_64[i].place;                                                                  \
            name[i].length = (size_t)name##_64[i].length;                                                                \
            name[i].written = (size_t)name##_64[i].written;                                                              \
            name[i].kind = name##_64[i].kind;                                                                            \
        }                                                                                                                \
    free(name##_64);
#endif

