/* One axis of a controller: proportional, integral and derivative parts in whole numbers.
   No alarm: from each state within its limits, on each reading, a step overflows nowhere and
   keeps the state and the drive within their limits. So it does from then on, for as long as
   the controller runs. */
int __any_int(void);
void __assume(int condition);
void __assert(int condition);

enum { MOST_ERROR = 10000, MOST_SUM = 1000000, MOST_DRIVE = 1023 };
enum { GAIN = 12, SLOWNESS = 50, DAMPING = 4 };

static int sum, before;

static int limited(int value, int most) {
    if (value > most)
        return most;
    if (value < -most)
        return -most;
    return value;
}

static int step(int reading) {
    int error = limited(reading, MOST_ERROR);
    int change = error - before;
    sum = limited(sum + error, MOST_SUM);
    before = error;
    return limited(GAIN * error + sum / SLOWNESS + DAMPING * change, MOST_DRIVE);
}

int main(void) {
    int drive;
    sum = __any_int();
    before = __any_int();
    __assume(sum >= -MOST_SUM && sum <= MOST_SUM);
    __assume(before >= -MOST_ERROR && before <= MOST_ERROR);
    drive = step(__any_int());
    __assert(sum >= -MOST_SUM && sum <= MOST_SUM);
    __assert(before >= -MOST_ERROR && before <= MOST_ERROR);
    __assert(drive >= -MOST_DRIVE && drive <= MOST_DRIVE);
    return 0;
}
