/* A saturating adder: the sum of two samples, or the nearest number that a sample can have.
   No alarm: the sum is made in a type that holds it, and each answer is a sample again. */
short __any_short(void);
void __assert(int condition);

enum { LOW = -32768, HIGH = 32767 };

static int saturated(int sum) {
    if (sum > HIGH)
        return HIGH;
    if (sum < LOW)
        return LOW;
    return sum;
}

static int add(short a, short b) {
    return saturated(a + b);
}

int main(void) {
    for (;;) {
        int sum = add(__any_short(), __any_short());
        __assert(sum >= LOW && sum <= HIGH);
    }
}
