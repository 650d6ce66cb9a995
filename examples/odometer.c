/* Each of three digits may start anew, however high, where one before it falls. */
int main() {
  int x, y, z;
  while (x > 0 && y > 0 && z > 0) {
    if (?) {
      x = x - 1;
      y = ?;
      z = ?;
    } else if (?) {
      y = y - 1;
      z = ?;
    } else
      z = z - 1;
  }
}
