struct CAPABILITY("mutex") lock { int s; };
void acq(struct lock *m) ACQUIRE(m);
void rel(struct lock *m) RELEASE(m);
struct lock mu;
int g GUARDED_BY(mu);
void w(int c) {
  if (c) acq(&mu);
  if (c) g = 1;
  if (c) rel(&mu);
}
