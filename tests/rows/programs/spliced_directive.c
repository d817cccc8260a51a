int main(void) {
  # /* so */ pragma css \
 start // from here
  putchar(97);
  return 0;
}