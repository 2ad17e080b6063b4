__attribute__((constructor(100 + 1))) static void a(void) { }
int main(void) { return 0; }
/* refused 1 a `constructor` or `destructor` of this form */
