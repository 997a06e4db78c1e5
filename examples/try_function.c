struct CAPABILITY("mutex") lock { int s; };
void acq(struct lock *m) ACQUIRE(m);
void rel(struct lock *m) RELEASE(m);
int tr(struct lock *m) TRY_ACQUIRE(1, m);
struct lock mu;
struct lock nu;
int g GUARDED_BY(mu);
int both(struct lock *a, struct lock *b) TRY_ACQUIRE(1, a, b) {
  if (!tr(a)) return 0;
  if (tr(b)) return 1;
  rel(a);
  return 0;
}
int hasty(struct lock *a, struct lock *b) TRY_ACQUIRE(1, a, b) {
  if (!tr(a)) return 0;
  if (tr(b)) return 1;
  return 0;
}
void w(void) {
  if (both(&mu, &nu)) {
    g = 1;
    rel(&nu);
    rel(&mu);
  }
}
