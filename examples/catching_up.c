/* The distance of i from j falls by at least 1, by an amount that nobody knows (after Podelski and Rybalchenko, 2004). */
int main() {
  int i, j;
  while (i - j >= 1) {
    i = i - [0, inf];
    j = j + [1, inf];
  }
}
