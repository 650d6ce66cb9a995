/* x swings around 10/3 until it is below 0 (after Podelski and Rybalchenko, 2004). */
int main() {
  int x;
  while (x >= 0)
    x = -2*x + 10;
}
