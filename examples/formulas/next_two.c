/* A bounded response: two steps behind a request stands its answer. */
int main() {
  int ask, answer;
  ask = 1;
  answer = 1;
  ask = 0;
}
