int main(void) {
  int x = 0; putchar(97);
  putchar(98 % x);
  return 0;
}