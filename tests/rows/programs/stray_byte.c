int main(void) {
  @
}