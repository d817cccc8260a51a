#pragma css task inout(p)
void inc(int *p) { p[9999999] = 1; }
int main(void) {
  int x = 4;
  inc(&x);
  putchar(48 + x);
  return 0;
}
