unsigned sum(unsigned a, unsigned b)
{
    unsigned a = b;

    return a;
}
