/* 33 parts of an expression, one inside the other */
unsigned deep(unsigned a)
{
    return ~~~~~~~~~~~~~~~~~~~~~~~~~~~~~~~~a;
}
