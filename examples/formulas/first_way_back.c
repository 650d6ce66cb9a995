/* The way out is taken at the first test: to pick the body as soon as it leads to a claim would never leave. */
int main() {
  int x;
  while (?)
    x = x + 1;
}
