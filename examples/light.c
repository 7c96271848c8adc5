/* A traffic light with a button for those on foot, as a state machine.
   No alarm: from each of the four states, with any time left, a second leads to one of the
   four, and the time that is left stays from 0 to 40. */
int __any_int(void);
void __assume(int condition);
void __assert(int condition);

enum state { RED, RED_AMBER, GREEN, AMBER };

static enum state state;
static int left;

static int seconds_of(enum state shown, int wanted) {
    switch (shown) {
    case RED: return 20;
    case GREEN: return wanted ? 5 : 40;
    default: return 3;
    }
}

static enum state after(enum state shown) {
    switch (shown) {
    case RED: return RED_AMBER;
    case RED_AMBER: return GREEN;
    case GREEN: return AMBER;
    default: return RED;
    }
}

static void second(int pressed) {
    if (left > 0) {
        left--;
    } else {
        state = after(state);
        left = seconds_of(state, pressed);
    }
}

int main(void) {
    state = (enum state)__any_int();
    left = __any_int();
    __assume(state >= RED && state <= AMBER);
    __assume(left >= 0 && left <= 40);
    second(__any_int());
    __assert(state >= RED && state <= AMBER);
    __assert(left >= 0 && left <= 40);
    return 0;
}
