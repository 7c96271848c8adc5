/* A scheduler of three tasks, each a case of a switch, that counts the time that each took.
   No alarm: from each turn and any counters, a turn leads to one of the three, and counters
   stop at their greatest number. */
int __any_int(void);
void __assume(int condition);
void __assert(int condition);

enum task { SENSE, THINK, ACT, TASKS };
enum { BUDGET = 100, MOST = 2147483647 };

static int turn, sensed, thought, acted;

static int time_taken(void) {
    int time = __any_int();
    if (time < 0)
        return 0;
    return time > BUDGET ? BUDGET : time;
}

static int counted(int total, int time) {
    return total > MOST - BUDGET ? MOST : total + time;
}

static void run(int time) {
    switch (turn) {
    case SENSE: sensed = counted(sensed, time); break;
    case THINK: thought = counted(thought, time); break;
    case ACT: acted = counted(acted, time); break;
    default: __assert(0);
    }
    turn = (turn + 1) % TASKS;
}

int main(void) {
    turn = __any_int();
    sensed = __any_int();
    thought = __any_int();
    acted = __any_int();
    __assume(turn >= SENSE && turn < TASKS);
    run(time_taken());
    __assert(turn >= SENSE && turn < TASKS);
    return 0;
}
