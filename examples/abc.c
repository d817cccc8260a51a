int main(void) {
  putchar(97);
  putchar(98);
  putchar(99);
  return 0;
}
