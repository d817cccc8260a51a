#define DIGIT(n) 48
int main(void) { return 0; }
