struct CAPABILITY("mutex") lock { int s; };
void acq(struct lock *m) ACQUIRE(m);
void rel(struct lock *m) RELEASE(m);
struct buffer {
  struct lock mu;
  int slots[8] GUARDED_BY(mu);
  int first GUARDED_BY(mu);
  int count GUARDED_BY(mu);
};
struct buffer buffer;
int put(struct buffer *b, int value) {
  int done = 0;
  acq(&b->mu);
  if (b->count < 8) {
    b->slots[(b->first + b->count) % 8] = value;
    b->count += 1;
    done = 1;
  }
  rel(&b->mu);
  return done;
}
int is_full(struct buffer *b) {
  return b->count == 8;
}
void put_into_ours(int value) {
  put(&buffer, value);
}
