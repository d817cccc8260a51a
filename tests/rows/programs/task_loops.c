#pragma css task inout(p)
void f(int *p) {
  while (1)
    p[0] = p[0] + 1;
}
int main(void) {
  int x = 0;
  #pragma css start
  f(&x);
  #pragma css finish
  return 0;
}
