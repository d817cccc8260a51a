#pragma css task inout(p)
void twice(int *p) { p[0] = 2 * p[0]; }
#pragma css task inout(p)
void sum(int *p) { int i = 0; int s = 0; while (i < p[0]) { i = i + 1; s = s + i; } p[0] = s; }
int main(void) {
  int a = 2;
  int b = 3;
  #pragma css start
  twice(&a);
  sum(&a);
  sum(&b);
  twice(&b);
  #pragma css barrier
  putchar(48 + a / 10);
  putchar(48 + a % 10);
  putchar(32);
  putchar(48 + b / 10);
  putchar(48 + b % 10);
  putchar(10);
  #pragma css finish
  return 0;
}
