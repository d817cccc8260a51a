int main(void) {
  int i = 2;
  int j;
  while (i > 0) {
    j = 2;
    while (j > 0) {
      putchar(48 + j); j = j - 1;
    }
    i = i - 1;
  }
  return 5;
}