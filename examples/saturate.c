unsigned saturate(unsigned a, unsigned b)
{
    if (a > 4294967295u - b)
        return 4294967295u;
    return a + b;
}
