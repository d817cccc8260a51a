#pragma css task inout(p)
void f(int *p) {
  p[0] = 1 / p[0];
}
int main(void) {
  int x = 0;
  putchar('a');
  #pragma css start
  f(&x);
  putchar('b');
  #pragma css finish
  return 0;
}
