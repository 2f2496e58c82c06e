unsigned offset(unsigned base)
{
    return base + 4096u + 16u;
}
