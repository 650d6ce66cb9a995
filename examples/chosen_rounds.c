/* A loop in a loop, whose turns are chosen first, as files of SV-COMP have it. */
int main() {
  int i, j, n;
  n = ?;
  i = 0;
  while (i < n) {
    j = 0;
    while (j < n)
      j = j + 1;
    i = i + 1;
  }
}
