int main(void) {
  #pragma css start
  #pragma css start
  return 1;
}
