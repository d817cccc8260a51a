#define KIND inout
#define ONE 1
#pragma css task KIND(p)
void inc(int *p) { p[0] = p[0] + ONE; }
int main(void) {
  int x = 4;
  #pragma css start /* here */
  inc(&x);
  #pragma css barrier // wait
  putchar('0' + x);
  #pragma css finish
  return 0;
}
