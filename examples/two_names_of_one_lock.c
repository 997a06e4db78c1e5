struct CAPABILITY("mutex") lock { int s; };
void acq(struct lock *m) ACQUIRE(m);
void rel(struct lock *m) RELEASE(m);
struct account { struct lock mu; int balance GUARDED_BY(mu); };
void swap(struct account *p, struct account *q) REQUIRES(p->mu, q->mu) {
  int kept = p->balance;
  p->balance = q->balance;
  q->balance = kept;
}
void turn(struct account *a, struct account *b) {
  acq(&a->mu);
  acq(&b->mu);
  swap(a, b);
  rel(&b->mu);
  swap(a, a);
  rel(&a->mu);
}
