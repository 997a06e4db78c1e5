struct CAPABILITY("mutex") lock { int s; };
void acq(struct lock *m) ACQUIRE(m);
void rel(struct lock *m) RELEASE(m);
void acqs(struct lock *m) ACQUIRE_SHARED(m);
void rels(struct lock *m) RELEASE_SHARED(m);
struct lock mu;
int total GUARDED_BY(mu);
int read_total(void) {
  int seen = 0;
  acqs(&mu);
  seen = total;
  rels(&mu);
  return seen;
}
void add(int n) {
  acq(&mu);
  total += n;
  rel(&mu);
}
void add_as_a_reader(int n) {
  acqs(&mu);
  total += n;
  rels(&mu);
}
