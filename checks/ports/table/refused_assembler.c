int main(void)
{
    int n = 1;
    asm ("incl %0" : "+r" (n));
    return n;
}
/* refused 4 asm */
