/* What the pages beside this file quote. */
static int twice(int n)
{
    int sum = n;

    sum += n;
    return sum;
}

int main(void)
{
    return twice(0);
}
