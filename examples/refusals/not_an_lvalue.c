void bump(unsigned a)
{
    (a + 1) = a;
}
