typedef unsigned count;

count increase(count a)
{
    return a + 1;
}
