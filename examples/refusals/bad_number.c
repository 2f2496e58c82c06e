unsigned half(unsigned a)
{
    return a * 0.5;
}
