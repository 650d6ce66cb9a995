/* One way of two counts down, and it may be taken each time. */
int main() {
  int x;
  while (x > 0)
    if (?)
      x = x - 1;
    else
      x = x + 1;
}
