/* Each run either ends or stays at 0 for ever. */
int main() {
  int x;
  while (x >= 0)
    if (x > 0)
      x = x - 1;
    else
      ;
}
