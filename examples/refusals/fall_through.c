unsigned days(unsigned month)
{
    unsigned n = 31;

    switch (month) {
    case 2:
        n = 28;
    case 4:
        n = 30;
        break;
    }
    return n;
}
