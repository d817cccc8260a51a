int main(void) {
#pragma css wait on(x)
  return 0;
}