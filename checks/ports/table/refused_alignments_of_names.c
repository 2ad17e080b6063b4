int _Alignas(int __attribute__((aligned(16)))) wide;
int main(void) { return _Alignof(int __attribute__((aligned(8)))); }
/* refused 2 an alignment in the name of a type */
/* refused 1 an alignment in the name of a type */
