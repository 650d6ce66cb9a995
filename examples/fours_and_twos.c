/* i rises by 4, or by 2 with a turn counted in j (after Cousot and Halbwachs, 1978). */
int main() {
  int i = 2, j = 0;
  while (i <= 100) {
    if (?)
      i = i + 4;
    else {
      j = j + 1;
      i = i + 2;
    }
  }
}
