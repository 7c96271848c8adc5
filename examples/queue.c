/* A bounded queue of messages.
   A fault: the queue is full one message too late, so the fourth message is written behind the
   last item. */
enum { ROOM = 3 };

static int items[ROOM];
static int count;

static int is_full(void) {
    return count > ROOM;
}

static int put(int message) {
    if (is_full())
        return 0;
    items[count] = message;
    count++;
    return 1;
}

int main(void) {
    int sent = put(10) && put(11);
    return sent && put(12) && put(13);
}
