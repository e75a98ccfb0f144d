/* Works out sums, products, quotients and brackets, one line of the input after the other. */
#include <stdio.h>

int letter;

int sum(void);

void print(char *text) {
  while (*text) putchar(*text++);
}

void skip(void) {
  do letter = getchar();
  while (letter == ' ' || letter == '\t');
}

int is_digit(int c) {
  return '0' <= c && c <= '9';
}

int number(void) {
  int n = 0;
  while (is_digit(letter)) {
    n = n * 10 + (letter - '0');
    skip();
  }
  return n;
}

int factor(void) {
  int value;
  if (letter == '-') {
    skip();
    return -factor();
  }
  if (letter != '(') return number();
  skip();
  value = sum();
  if (letter == ')') skip();
  return value;
}

int product(void) {
  int value = factor();
  for (;;) {
    if (letter == '*') {
      skip();
      value *= factor();
    } else if (letter == '/') {
      skip();
      value /= factor();
    } else if (letter == '%') {
      skip();
      value %= factor();
    } else
      return value;
  }
}

int sum(void) {
  int value = product();
  while (letter == '+' || letter == '-') {
    int sign = letter == '+' ? 1 : -1;
    skip();
    value += sign * product();
  }
  return value;
}

int main(void) {
  skip();
  while (letter != EOF) {
    int value = sum();
    if (letter == '\n' || letter == EOF)
      putint(value);
    else {
      print("not a sum");
      while (letter != '\n' && letter != EOF) skip();
    }
    putchar('\n');
    skip();
  }
  return 0;
}
