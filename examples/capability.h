/* The words of thread safety attributes, for a compiler that knows Clang's attributes and for any other.
 *
 * Clang warns by them with -Wthread-safety; to every other compiler they say nothing. The checker of this repository
 * knows the words without this file and skips the include.
 */
#ifndef CAPABILITY_H
#define CAPABILITY_H

#if defined(__clang__)
#define THREAD_ATTRIBUTE(x) __attribute__((x))
#else
#define THREAD_ATTRIBUTE(x)
#endif

/* on a struct: its values are locks, called so in messages */
#define CAPABILITY(name) THREAD_ATTRIBUTE(capability(name))

/* on a member or a global: the lock that is held at each read and write */
#define GUARDED_BY(lock) THREAD_ATTRIBUTE(guarded_by(lock))

/* on a function: the locks that its caller holds, exclusively or in some mode */
#define REQUIRES(...) THREAD_ATTRIBUTE(requires_capability(__VA_ARGS__))
#define REQUIRES_SHARED(...) THREAD_ATTRIBUTE(requires_shared_capability(__VA_ARGS__))

/* on a function: the locks that it takes, exclusively or shared */
#define ACQUIRE(...) THREAD_ATTRIBUTE(acquire_capability(__VA_ARGS__))
#define ACQUIRE_SHARED(...) THREAD_ATTRIBUTE(acquire_shared_capability(__VA_ARGS__))

/* on a function: the locks that it gives back, held exclusively, shared, or in either mode */
#define RELEASE(...) THREAD_ATTRIBUTE(release_capability(__VA_ARGS__))
#define RELEASE_SHARED(...) THREAD_ATTRIBUTE(release_shared_capability(__VA_ARGS__))
#define RELEASE_GENERIC(...) THREAD_ATTRIBUTE(release_generic_capability(__VA_ARGS__))

/* on a function: the result for which it took its locks, and then the locks */
#define TRY_ACQUIRE(...) THREAD_ATTRIBUTE(try_acquire_capability(__VA_ARGS__))
#define TRY_ACQUIRE_SHARED(...) THREAD_ATTRIBUTE(try_acquire_shared_capability(__VA_ARGS__))

/* on a function: the locks that its caller doesn't hold */
#define EXCLUDES(...) THREAD_ATTRIBUTE(locks_excluded(__VA_ARGS__))

/* on a global lock: the locks that are taken after it, and those that are taken before it */
#define ACQUIRED_BEFORE(...) THREAD_ATTRIBUTE(acquired_before(__VA_ARGS__))
#define ACQUIRED_AFTER(...) THREAD_ATTRIBUTE(acquired_after(__VA_ARGS__))

#endif
