/* Some run keeps the lock for ever, or gives it back first. */
int main() {
  int lock;
  while (?)
    lock = [0, 1];
}
