/* Two variables that move towards each other (after Podelski and Rybalchenko, 2004). */
int main() {
  int x, y;
  while (x < y) {
    x++;
    y--;
  }
}
