struct node {
    unsigned value;
    struct node *next;
};

unsigned total(struct node *list)
{
    unsigned sum = 0;

    while (list) {
        sum = sum + list->value;
        list = list->next;
    }
    return sum;
}
