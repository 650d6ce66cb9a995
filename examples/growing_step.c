/* The test asks for a sum, and both of its parts change (after Mysore of SV-COMP's termination category). */
int main() {
  int x, c;
  if (c >= 2)
    while (x + c >= 0) {
      x = x - c;
      c = c + 1;
    }
  return 0;
}
