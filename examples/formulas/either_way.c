/* One of two ways leads to 2. */
int main() {
  int x;
  if (?)
    x = 1;
  else
    x = 2;
}
