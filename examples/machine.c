/* A door: it is opened, closed and locked by turns. */
enum { CLOSED, OPEN, LOCKED };
enum { PULL, PUSH, KEY };

int step(int state, int event)
{
    switch (state) {
    case CLOSED:
        if (event == PULL)
            state = OPEN;
        else if (event == KEY)
            state = LOCKED;
        break;
    case OPEN:
        if (event == PUSH)
            state = CLOSED;
        break;
    case LOCKED:
        if (event == KEY)
            state = CLOSED;
        break;
    default:
        break;
    }
    return state;
}
