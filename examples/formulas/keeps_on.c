/* Some run keeps x above 0 for ever. */
int main() {
  int x;
  while (x > 0)
    if (?)
      x = x - 1;
    else
      ;
}
