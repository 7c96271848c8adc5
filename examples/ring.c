/* A ring buffer of bytes.
   A fault: `take` gives a byte only where one is there, and the sum of three bytes does not
   ask, though two were put in. */
typedef unsigned char byte;

enum { ROOM = 4 };

struct ring { byte items[ROOM]; unsigned first, count; };

static struct ring ring;

static int put(struct ring *r, byte b) {
    if (r->count == ROOM)
        return 0;
    r->items[(r->first + r->count) % ROOM] = b;
    r->count++;
    return 1;
}

static int take(struct ring *r, byte *b) {
    if (r->count == 0)
        return 0;
    *b = r->items[r->first];
    r->first = (r->first + 1) % ROOM;
    r->count--;
    return 1;
}

static int sum_of(struct ring *r, int number) {
    int sum = 0, k;
    for (k = 0; k < number; k++) {
        byte b;
        take(r, &b);
        sum += b;
    }
    return sum;
}

int main(void) {
    put(&ring, 5);
    put(&ring, 6);
    return sum_of(&ring, 3);
}
