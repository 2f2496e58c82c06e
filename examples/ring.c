/* A ring buffer: the oldest of its numbers is at first. */
struct ring {
    unsigned first;
    unsigned count;
    int items[16];
};

unsigned put(struct ring *r, int item)
{
    if (r->count == 16)
        return 0;
    r->items[(r->first + r->count) % 16] = item;
    r->count = r->count + 1;
    return 1;
}

unsigned take(struct ring *r, int *item)
{
    if (r->count == 0)
        return 0;
    *item = r->items[r->first];
    r->first = (r->first + 1) % 16;
    r->count = r->count - 1;
    return 1;
}
