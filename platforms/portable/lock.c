/* A lock that is held for a few instructions. */
#if defined(__GNUC__)
typedef volatile int LOCK;
static void take_lock(LOCK *lock) {
    while (__sync_lock_test_and_set(lock, 1)) {}
}
static void give_lock(LOCK *lock) { __sync_lock_release(lock); }
#elif defined(_MSC_VER)
#include <intrin.h>
typedef volatile long LOCK;
static void take_lock(LOCK *lock) {
    while (_InterlockedExchange(lock, 1)) {}
}
static void give_lock(LOCK *lock) { _InterlockedExchange(lock, 0); }
#else
#include <stdatomic.h>
typedef atomic_int LOCK;
static void take_lock(LOCK *lock) {
    while (atomic_exchange(lock, 1)) {}
}
static void give_lock(LOCK *lock) { atomic_store(lock, 0); }
#endif
