/* A parser of fields that have a type, a length and so many bytes of value.
   A fault: the last field says that it has three bytes where two are left, and its length is
   not tested. */
enum { COUNTER = 1, NAME = 2 };

static const unsigned char message[] = { COUNTER, 1, 7, NAME, 3, 'o', 'k' };

static unsigned total;

static unsigned value_at(unsigned at, unsigned length) {
    unsigned value = 0, k;
    for (k = 0; k < length; k++)
        value = value << 8 | message[at + k];
    return value;
}

static unsigned field_at(unsigned at) {
    unsigned type = message[at], length = message[at + 1];
    if (type == COUNTER || type == NAME)
        total += value_at(at + 2, length);
    return at + 2 + length;
}

int main(void) {
    unsigned at = 0;
    while (at < sizeof message)
        at = field_at(at);
    return total == 0;
}
