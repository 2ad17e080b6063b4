__float128 wide;
_Complex double c;
int main(void) { return sizeof wide + sizeof c; }
/* refused 1 `__float128`
refused 2 `_Complex`
 */
