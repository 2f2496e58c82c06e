int sign(int a)
{
    if (a < 0)
        goto negative;
    return 1;
negative:
    return -1;
}
