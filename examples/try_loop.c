struct CAPABILITY("mutex") lock { int s; };
void acq(struct lock *m) ACQUIRE(m);
void rel(struct lock *m) RELEASE(m);
int tr(struct lock *m) TRY_ACQUIRE(1, m);
struct lock mu;
int g GUARDED_BY(mu);
void wait_and_set(void) {
  while (!tr(&mu)) { }
  g = 1;
  rel(&mu);
}
void set_if_free(void) {
  int ok = tr(&mu);
  if (ok) {
    g = 1;
    rel(&mu);
  }
}
void set_after_a_failure(void) {
  if (tr(&mu)) {
    rel(&mu);
  } else {
    g = 1;
  }
}
