__attribute__((constructor)) static void begin(void) { }
int main(int count, char **words) { return count > 3 ? main(count - 1, words) : 0; }
/* refused 1 a constructor beside a call of `main` */
