/* A choice as in SV-COMP: a quarter of at least 8 is taken away, which is at least 2, or just 2. */
extern int __VERIFIER_nondet_int(void);
int main() {
  int x;
  while (x > 7) {
    if (__VERIFIER_nondet_int())
      x = x - x / 4;
    else
      x = x - 2;
  }
  return 0;
}
