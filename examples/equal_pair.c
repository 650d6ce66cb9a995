/* The step is -1 as a and b are the same (after Stockholm of SV-COMP's termination category). */
int main() {
  int a, b, x;
  if (a == b)
    while (x >= 0)
      x = x + a - b - 1;
  return 0;
}
