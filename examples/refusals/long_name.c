unsigned the_number_of_all_the_pages_that_were_mapped_before_the_kernel_took_over(unsigned a)
{
    return a;
}
