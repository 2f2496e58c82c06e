unsigned length(char *s)
{
    unsigned n = 0;
    while (s[n])
        n = n + 1;
    return n;
}
