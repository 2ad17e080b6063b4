/* implicit everything */
f (n) { return n + 1; }
static x = 4;
g () { return f (x) + h (2, 3); }
h (a, b) int b; { return a * b; }
char *name (n) int n; { static char t[4]; t[0] = 'a' + n; t[1] = 0; return t; }
main () { register i; auto s = 0; for (i = 0; i < 3; i++) s += f (i); if (s != 6 || g () != 11 || *name (2) != 'c') abort (); exit (0); }
