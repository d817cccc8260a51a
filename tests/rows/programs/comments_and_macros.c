#define LAST 3 /* turns */
int main(void) { // counts
  int i = 0;
  while (i < LAST) { putchar('a' + i); i = i + 1; }
  return LAST - i;
}
