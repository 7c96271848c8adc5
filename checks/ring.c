typedef unsigned char u8;
enum { CAP = 8 };
enum state { IDLE, RUN, STOP };
struct ring { u8 buf[CAP]; unsigned head, count; };
static struct ring q;
static enum state st = IDLE;
static const int weight[3] = { 1, 2, 4 };
static int put(struct ring *r, u8 v) {
  if (r->count >= CAP) return 0;
  r->buf[(r->head + r->count) % CAP] = v;
  r->count++;
  return 1;
}
static int take(struct ring *r) {
  int v;
  if (r->count == 0) return -1;
  v = r->buf[r->head];
  r->head = (r->head + 1) % CAP;
  r->count--;
  return v;
}
int main() {
  int i, sum = 0;
  for (i = 0; i < 100; i++) {
    if (i < 3) sum = (sum + weight[i]) % 1000;
    switch (st) {
    case IDLE: if (__any_int()) st = RUN; break;
    case RUN: if (!put(&q, (u8)i)) st = STOP; break;
    default: { int v = take(&q); if (v < 0) st = IDLE; else sum = (sum + v) % 1000; }
    }
  }
  return sum;
}
