/* A product, by one factor that is halved and one that is doubled (after the papyrus Rhind). */
int main() {
  int x, y, product = 0;
  while (x > 0) {
    if (x % 2 == 1)
      product = product + y;
    x = x / 2;
    y = y + y;
  }
}
