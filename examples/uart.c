/* A driver that sets up a serial port over its registers.
   Two faults, of rates that nobody refuses: 0 makes the division one by 0, and a great one makes
   the product overflow. */
int __any_int(void);

enum { CLOCK = 48000000, SAMPLES = 16 };
enum { ENABLE = 1, SEND = 2, RECEIVE = 4 };

struct uart { unsigned status, control, divisor, data; };

static struct uart port;

static unsigned divisor_of(int rate) {
    return (unsigned)(CLOCK / (SAMPLES * rate));
}

static void set_up(int rate) {
    port.divisor = divisor_of(rate);
    port.control = ENABLE | SEND | RECEIVE;
}

int main(void) {
    int rate = __any_int();
    if (rate < 0)
        return 1;
    set_up(rate);
    return 0;
}
