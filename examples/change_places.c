/* Two variables change places, and each grows by 1 on the way (after Swingers of SV-COMP's termination category). */
int main() {
  int bob = 13, samantha = 17, old;
  while (bob + samantha < 100) {
    old = bob;
    bob = samantha + 1;
    samantha = old + 1;
  }
  return 0;
}
