struct CAPABILITY("reentrant mutex") lock { int s; };
void acq(struct lock *m) ACQUIRE(m);
void rel(struct lock *m) RELEASE(m);
struct lock mu;
int g GUARDED_BY(mu);
void twice(void) {
  acq(&mu);
  acq(&mu);
  g = 1;
  rel(&mu);
  g = 2;
  rel(&mu);
}
void once_too_often(void) {
  acq(&mu);
  acq(&mu);
  rel(&mu);
}
