/* Where x falls y is chosen anew, so no bound exists where x is above 1 (after Cook, Podelski and Rybalchenko, 2011). */
int main() {
  int x, y;
  while (x > 0 && y > 0) {
    if (?) {
      x = x - 1;
      y = ?;
    } else
      y = y - 1;
  }
}
