/* Three loops in one another: a rank of three functions, one for each loop. */
int main() {
  int i, j, k, n;
  i = 0;
  while (i < n) {
    j = 0;
    while (j < n) {
      k = 0;
      while (k < n)
        k = k + 1;
      j = j + 1;
    }
    i = i + 1;
  }
}
