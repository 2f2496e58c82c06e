unsigned *between(unsigned *p, unsigned *q)
{
    return p + q;
}
