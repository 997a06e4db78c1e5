/* A condition variable gives its lock back while it waits, and has it again when it returns. */
struct CAPABILITY("mutex") lock { int s; };
void acq(struct lock *m) ACQUIRE(m);
void rel(struct lock *m) RELEASE(m);
void sleep_until_woken(void);
struct lock mu;
int ready GUARDED_BY(mu);
void wait_on(struct lock *m) REQUIRES(m) {
  rel(m);
  sleep_until_woken();
  acq(m);
}
void consume(void) {
  acq(&mu);
  while (ready == 0) {
    wait_on(&mu);
  }
  ready = 0;
  rel(&mu);
}
void consume_without_the_lock(void) {
  wait_on(&mu);
}
