char first(void)
{
    return "first"[0];
}
