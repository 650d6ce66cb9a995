/* The slower of two speeds bounds the loop (after Urban, The abstract domain of segmented ranking functions, 2013). */
int main() {
  int x;
  while (x > 0) {
    if (?)
      x = x - 1;
    else
      x = x - 2;
  }
}
