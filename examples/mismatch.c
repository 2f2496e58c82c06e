unsigned first(unsigned *p)
{
    return p;
}
