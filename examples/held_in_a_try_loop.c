struct CAPABILITY("mutex") lock { int s; };
void acq(struct lock *m) ACQUIRE(m);
void rel(struct lock *m) RELEASE(m);
int tr(struct lock *m) TRY_ACQUIRE(1, m);
struct lock mu;
int g GUARDED_BY(mu);
void set_if_free(void) {
  int ok = tr(&mu);
  if (ok) {
    g = 1;
    rel(&mu);
  }
}
