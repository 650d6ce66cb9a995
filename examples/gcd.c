/* Euclid's algorithm by subtraction, from inputs above 0 (after Bradley, Manna and Sipma, 2005). */
int main() {
  int x, y;
  if (x > 0 && y > 0)
    while (x != y) {
      if (x > y)
        x = x - y;
      else
        y = y - x;
    }
}
