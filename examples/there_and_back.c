/* y rises while x is at most 50, and then it falls below 0 (after Gopan and Reps, 2006). */
int main() {
  int x = 0, y = 0;
  while (y >= 0) {
    if (x <= 50)
      y = y + 1;
    else
      y = y - 1;
    x = x + 1;
  }
}
