
int main(void) {
  putchar(97);
  while
    (1)
    putchar(98);
}