/* It ends only where it never enters the loop. */
int main() {
  int x;
  while (x > 0)
    x = x + 1;
}
