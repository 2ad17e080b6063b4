#include <stdio.h>
enum { NA = 3 }; typedef unsigned char byte; struct tok { enum { T_NUM, T_OP, T_END } k; union { long num; const char *op; } u; };
static const char *src; static struct tok cur;
static void next(void) { while (*src == ' ') src++; if (!*src) { cur.k = T_END; return; } if (*src >= '0' && *src <= '9') { long v = 0; while (*src >= '0' && *src <= '9') v = v * 10 + *src++ - '0'; cur.k = T_NUM; cur.u.num = v; return; } cur.k = T_OP; cur.u.op = src++; }
static long expr(void); static long atom(void) { long v; if (cur.k == T_NUM) { v = cur.u.num; next(); return v; } if (cur.k == T_OP && *cur.u.op == '(') { next(); v = expr(); next(); return v; } if (cur.k == T_OP && *cur.u.op == '-') { next(); return -atom(); } return 0; }
static long term(void) { long v = atom(); while (cur.k == T_OP && (*cur.u.op == '*' || *cur.u.op == '/')) { char o = *cur.u.op; long w; next(); w = atom(); v = o == '*' ? v * w : w ? v / w : 0; } return v; }
static long expr(void) { long v = term(); while (cur.k == T_OP && (*cur.u.op == '+' || *cur.u.op == '-')) { char o = *cur.u.op; next(); if (o == '+') v += term(); else v -= term(); } return v; }
int main(void) { const char *t[] = { "1+2*3", "(4 + 5) * -2", "100/7 - 3*(2-8)", 0 }; const char **p; for (p = t; *p; ++p) { src = *p; next(); printf("%s = %ld\n", *p, expr()); } return 0; }
/* writes
1+2*3 = 7
(4 + 5) * -2 = -18
100/7 - 3*(2-8) = 32
status 0 */
