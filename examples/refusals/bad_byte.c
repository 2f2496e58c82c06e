unsigned half(unsigned a)
{
    return a @ 2;
}
