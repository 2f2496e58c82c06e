unsigned sum(unsigned a, unsigned b, unsigned c)
{
    return a + b + c;
}
