unsigned *keep(unsigned a)
{
    return &a;
}
