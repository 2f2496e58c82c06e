void next(unsigned char *p)
{
    *p++;
}
