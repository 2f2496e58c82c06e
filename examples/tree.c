struct tree {
    unsigned key;
    struct tree *left;
    struct tree *right;
};

unsigned height(struct tree *t)
{
    unsigned left;
    unsigned right;
    if (!t)
        return 0;
    left = height(t->left);
    right = height(t->right);
    return (left < right ? right : left) + 1;
}
