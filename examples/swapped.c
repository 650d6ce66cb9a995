/* k - i - j falls in each turn, but no row of the test does (after Colón and Sipma, 2001). */
int main() {
  int i, j, k, old;
  while (i <= 100 && j <= k) {
    old = i;
    i = j;
    j = old + 1;
    k = k - 1;
  }
}
