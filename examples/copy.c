/* Copies all numbers where there is room for them, and otherwise none. */
unsigned copy(int *to, unsigned room, int *from, unsigned count)
{
    unsigned i;
    if (room < count)
        return 0;
    for (i = 0; i < count; i++)
        to[i] = from[i];
    return 1;
}
