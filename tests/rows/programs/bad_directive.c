int main(void) {
#pragma css start @
  putchar(97);
  return 0;
}
