/* The position of x among n numbers in order, or n where it isn't one of them. */
unsigned search(int *a, unsigned n, int x)
{
    unsigned low = 0;
    unsigned high = n;
    while (low < high) {
        unsigned middle = low + (high - low) / 2;
        if (a[middle] == x)
            return middle;
        if (a[middle] < x)
            low = middle + 1;
        else
            high = middle;
    }
    return n;
}
