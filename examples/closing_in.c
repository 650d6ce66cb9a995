/* x comes to the middle between itself and y, until there is none between them. */
int main() {
  int x, y;
  while (x - y >= 2)
    x = (x + y) / 2;
}
