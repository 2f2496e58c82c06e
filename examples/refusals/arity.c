unsigned min(unsigned a, unsigned b)
{
    return a < b ? a : b;
}

unsigned least(unsigned a, unsigned b, unsigned c)
{
    return min(a, b, c);
}
