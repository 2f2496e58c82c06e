unsigned bits(unsigned x)
{
    unsigned count = 0;
    while (x != 0) {
        x = x & (x - 1);
        count = count + 1;
    }
    return count;
}
