/* 33 operands nest 33 deep, to the left. */
unsigned deep(unsigned a)
{
    return a + a + a + a + a + a + a + a + a + a + a + a + a + a + a + a + a
        + a + a + a + a + a + a + a + a + a + a + a + a + a + a + a + a;
}
