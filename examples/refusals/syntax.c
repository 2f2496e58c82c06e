unsigned next(unsigned a)
{
    return a++;
}
