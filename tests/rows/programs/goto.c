int main(void) {
  return 0
  goto end;
}