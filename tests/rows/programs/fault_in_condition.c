int main(void) {
  int i = 2;
  while (6 / i)
    i = i - 1;
}