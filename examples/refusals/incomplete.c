struct node;

unsigned size(struct node *n)
{
    return sizeof(struct node);
}
