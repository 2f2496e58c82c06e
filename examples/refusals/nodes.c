/* 129 parts of an expression */
unsigned many(unsigned a)
{
    return (a + a + a + a + a + a + a + a)
        + (a + a + a + a + a + a + a + a)
        + (a + a + a + a + a + a + a + a)
        + (a + a + a + a + a + a + a + a)
        + (a + a + a + a + a + a + a + a)
        + (a + a + a + a + a + a + a + a)
        + (a + a + a + a + a + a + a + a)
        + (a + a + a + a + a + a + a + a);
}
