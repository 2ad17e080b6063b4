extern int there;
int gone(int);
int main(void) { return there + gone(3) + nowhere; }
/* refused 1 there
refused 2 gone
refused 3 nowhere */
