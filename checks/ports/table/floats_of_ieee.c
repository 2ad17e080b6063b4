#include <stdio.h>
static double begun[] = { 0.0 / 0.0, -(0.0 / 0.0), 1.0 / 0.0 };
static float narrow = 0.0f / 0.0f;
#ifdef __STDC_IEC_559__
#define KIND "as IEC 60559"
#else
#define KIND "unknown"
#endif
int main(void)
{
    double later = 0.0 / 0.0;
    float v = -7;
    int at = -1, r;
    printf("%s %d %d\n", KIND, __STDC_IEC_559__, __STDC_ISO_10646__ >= 199901L);
    printf("%f %f %f %f %f\n", begun[0], begun[1], begun[2], narrow, later);
    r = sscanf("0x.", "%f%n", &v, &at);
    printf("%d %a %d\n", r, v, at);
    r = sscanf("0x5", "%2f%n", &v, &at);
    printf("%d %a %d\n", r, v, at);
    r = sscanf("-0xz", "%f%n", &v, &at);
    printf("%d %a %d\n", r, v, at);
    return 0;
}
/* writes
as IEC 60559 1 1
nan -nan inf nan -nan
1 0x0p+0 3
1 0x0p+0 1
0 0x0p+0 1
status 0 */
