unsigned one(void)
{
    return 1; /* always
}
