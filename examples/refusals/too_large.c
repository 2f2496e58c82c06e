unsigned table[5000];

unsigned at(unsigned i)
{
    return table[i];
}
