struct CAPABILITY("mutex") lock { int s; };
void acq(struct lock *m) ACQUIRE(m);
void rel(struct lock *m) RELEASE(m);
struct owner { struct lock mu; int balance GUARDED_BY(mu); };
struct part { struct owner *const owner; int share GUARDED_BY(owner->mu); };
void give(struct part *p, int n) {
  acq(&p->owner->mu);
  p->share += n;
  p->owner->balance -= n;
  rel(&p->owner->mu);
}
void give_under_another(struct part *p, struct part *q, int n) {
  acq(&q->owner->mu);
  p->share += n;
  rel(&q->owner->mu);
}
