extern int elsewhere;
extern int number __attribute__((used, alias("elsewhere")));
int main(void)
{
    return 0;
}
/* refused 2 `number` as another name of `elsewhere`, which this file */
