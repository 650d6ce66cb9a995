/* That some run never ends, which is what an unknown line of the report without a formula leaves open. */
int main() {
  int x;
  while (x > 0)
    x = x + 1;
}
