unsigned read(unsigned port);

unsigned status(void)
{
    return read(8);
}
