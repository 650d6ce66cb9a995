/* Below 0 a number counts as 0, and above 100 as 100: a function returns early. */
int clamp(int x) {
  if (x < 0) return 0;
  if (x > 100) return 100;
  return x;
}

int main() {
  int x, n;
  n = clamp(x);
  while (n > 0)
    n = n - 1;
}
