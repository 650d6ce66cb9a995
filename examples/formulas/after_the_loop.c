/* What holds behind the loop. */
int main() {
  int i, n;
  i = 0;
  while (i < n)
    i = i + 1;
}
