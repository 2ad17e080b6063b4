typedef int wider __attribute__((mode(TI)));
enum e { A } __attribute__((mode(QI))) small;
int first __attribute__((mode(QI))), second;
int main(void) { return first; }
/* refused 1 `__attribute__((mode))` */
/* refused 2 `__attribute__((mode))` */
/* refused 3 `__attribute__((mode))` */
