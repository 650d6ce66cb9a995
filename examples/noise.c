extern int __VERIFIER_nondet_int(void);
/* counts down under noise */
int main() {
  int x, y;
  while (x > 0 && y < 100) { // guard
    if (__VERIFIER_nondet_int()) y = y + 1;
    else y = y - 1;
    x = x - 1;
  }
  return 0;
}
