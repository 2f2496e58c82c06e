void forever(void)
{
again:
    goto again;
}
