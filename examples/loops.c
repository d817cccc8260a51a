int main(void) {
  int power = 1;
  int count = 0;
  int unit;
  while (power < 4000) {
    unit = 1;
    while (unit <= power / 10)
      unit = unit * 10;
    while (unit > 0) {
      putchar(48 + power / unit % 10);
      unit = unit / 10;
    }
    count = count + 1;
    if (count % 4 == 0)
      putchar(10);
    else
      putchar(32);
    power = power * 2;
  }
  return count;
}
