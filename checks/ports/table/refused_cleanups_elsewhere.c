static void end(int *n) { *n = 0; }
int main(void)
{
    int sum = 0;
    for (__attribute__((cleanup(end))) int i = 0; i < 3; i++)
        sum += i;
    return sum;
}
/* refused 5 a `cleanup` in the head of a `for` */
