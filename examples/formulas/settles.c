/* From some time on x is 1 for ever. */
int main() {
  int x;
  x = 1;
}
