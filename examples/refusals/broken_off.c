unsigned next(unsigned a)
{
    return a + 1;
