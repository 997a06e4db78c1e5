#include "capability.h"
/* a bank of two accounts */
typedef struct CAPABILITY("mutex") lock { int s; } lock_t;
void mtx_lock(lock_t *m) ACQUIRE(m);
void mtx_unlock(lock_t *m) RELEASE(m);
struct account { lock_t mu; int balance GUARDED_BY(&mu); };
struct account bank[2] = { { { 0 }, 100 }, { { 0 }, 50 } };
int transfer(struct account *from, struct account *to, int amount) {
  int done = 0;
  mtx_lock(&from->mu);
  mtx_lock(&to->mu);
  if (amount < 1 || from->balance < amount) goto out;
  from->balance -= amount;
  to->balance += amount;
  done = 1;
out:
  mtx_unlock(&to->mu);
  mtx_unlock(&from->mu);
  return done;
}
