/* jaywardrobe_shared.h: an engine that many threads call, one at a time.
 *
 * A jw_shared is a handle of jaywardrobe.h behind a lock (pthread_mutex_lock(3)). Link with
 * -pthread.
 *
 *     static jw_shared shared = JW_SHARED_INIT;
 *     if (jw_shared_new(&shared) < 0) ...
 *     jw_engine *engine = jw_shared_lock(&shared); ... in any thread
 *     int64_t pid = jw_spawn(engine, 1000, 1024, false);
 *     jw_shared_unlock(&shared);
 *     jw_shared_free(&shared);
 *
 * No other thread comes between two calls under one lock. After jw_shared_free a call of another
 * thread answers -JW_ENOENGINE, as before jw_shared_new.
 */
#ifndef JAYWARDROBE_SHARED_H
#define JAYWARDROBE_SHARED_H

#include <jaywardrobe.h>
#include <pthread.h>

#ifdef __cplusplus
extern "C" {
#endif

/* An engine, or none, and its lock. It is not copied. */
typedef struct jw_shared {
    pthread_mutex_t lock;
    jw_engine engine;
} jw_shared;

/* No engine, and a lock that nobody has. */
#define JW_SHARED_INIT { PTHREAD_MUTEX_INITIALIZER, JW_ENGINE_INIT }

/* Waits for the lock and takes it. Returns the handle, which is for this thread alone until
 * jw_shared_unlock. */
JW_MUST_USE JW_NONNULL(1)
static inline jw_engine *jw_shared_lock(jw_shared *shared) {
    pthread_mutex_lock(&shared->lock);
    return &shared->engine;
}

/* Releases the lock, which this thread has. */
JW_NONNULL(1)
static inline void jw_shared_unlock(jw_shared *shared) {
    pthread_mutex_unlock(&shared->lock);
}

/* Takes the lock and makes an engine: jw_engine_new. */
JW_MUST_USE JW_NONNULL(1)
static inline int64_t jw_shared_new(jw_shared *shared) {
    int64_t answer = jw_engine_new(jw_shared_lock(shared));
    jw_shared_unlock(shared);
    return answer;
}

/* Takes the lock and frees the engine: jw_engine_free. */
JW_NONNULL(1)
static inline void jw_shared_free(jw_shared *shared) {
    jw_engine_free(jw_shared_lock(shared));
    jw_shared_unlock(shared);
}

#ifdef __cplusplus
}
#endif

#endif
