/* Above 0 a fall of x chooses y anew, and below 0 a fall of y chooses x anew (after Urban and Miné, 2014). */
int main() {
  int x, y;
  while (x != 0 && y > 0) {
    if (x > 0) {
      if (?) {
        x = x - 1;
        y = ?;
      } else
        y = y - 1;
    } else {
      if (?)
        x = x + 1;
      else {
        y = y - 1;
        x = ?;
      }
    }
  }
}
