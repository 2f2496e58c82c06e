unsigned area(unsigned width)
{
    return width * height;
}
