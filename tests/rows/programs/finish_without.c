int main(void) {
  #pragma css finish
  return 1;
}
