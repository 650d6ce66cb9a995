/* Does each number come down to 1? Nobody knows (after Collatz, 1937). */
int main() {
  int x;
  while (x > 1) {
    if (x % 2 == 0)
      x = x / 2;
    else
      x = 3 * x + 1;
  }
}
