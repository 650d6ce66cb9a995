/* What a turn does is a function of its own. */
int step(int position, int speed) {
  if (position > 10)
    position = position - speed;
  else
    position = position - 1;
  return position;
}

int main() {
  int position, speed;
  while (position > 0 && speed > 0)
    position = step(position, speed);
}
