void f(int *p) { p[0] = 1; }
int main(void) {
  return 0
}