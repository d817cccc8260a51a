#pragma css task inout(p)
void inc(int *p) { p[0] = p[0] + 1; }
int main(void) {
  int x = 0;
  while (x < 3) {
    inc(&x);
  }
  return x;
}
