struct CAPABILITY("mutex") lock { int s; };
void acq(struct lock *m) ACQUIRE(m);
void rel(struct lock *m) RELEASE(m);
struct lock mu;
int g GUARDED_BY(mu);
void w(void) { acq(&mu); acq(&mu); rel(&mu); }
