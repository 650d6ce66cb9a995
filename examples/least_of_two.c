/* The lesser of p and q falls in each turn, whichever it is. */
int main() {
  int p, q;
  while (p > 0 && q > 0 && p != q) {
    if (q < p)
      q = q - 1;
    else
      p = p - 1;
  }
}
