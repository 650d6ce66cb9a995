/* From wherever a run is, some way leads back to 0. */
int main() {
  int x;
  x = [0, 3];
  x = 0;
}
