typedef int v4 __attribute__((vector_size(16)));
int main(void) { return 0; }
/* refused 1 vector_size */
