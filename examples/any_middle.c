/* Some number between both ends is chosen, and one end moves to it. */
int main() {
  int lo, hi, mid;
  while (lo < hi) {
    mid = ?;
    if (mid < lo || mid >= hi)
      break;
    if (?)
      lo = mid + 1;
    else
      hi = mid;
  }
}
