#pragma css task inout(p)
void inc(int *p) { p[1] = p[0] + 1; }
int main(void) {
  int x = 4;
  #pragma css start
  inc(&x);
  #pragma css barrier
  putchar(48 + x);
  #pragma css finish
  return 0;
}
