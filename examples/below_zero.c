/* The step is x + y, which stays below 0 (after Singapore of SV-COMP's termination category). */
int main() {
  int x, y;
  if (x + y < 0)
    while (x > 0)
      x = x + x + y;
  return 0;
}
