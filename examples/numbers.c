int main(void) {
  int seconds = 3725;
  int hours = seconds / 3600;
  int minutes = seconds / 60 % 60;
  seconds = seconds % 60;
  putchar(48 + hours);
  putchar(58);
  putchar(48 + minutes / 10);
  putchar(48 + minutes % 10);
  putchar(58);
  putchar(48 + seconds / 10);
  putchar(48 + seconds % 10);
  putchar(10);
  return (hours > 0 && seconds == 5) || 1 / 0;
}
