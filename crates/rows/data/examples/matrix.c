/* The product of two matrices of 24 by 24, row by row, and the sum of its diagonal. */
#include <stdio.h>

int a[576];
int b[576];
long c[576];

void fill(void) {
  for (int i = 0; i < 24; i++)
    for (int j = 0; j < 24; j++) {
      a[i * 24 + j] = (i * 7 + j * 3) % 11 - 5;
      b[i * 24 + j] = (i * 5 + j) % 13 - 6;
    }
}

void multiply(void) {
  for (int i = 0; i < 24; i++)
    for (int j = 0; j < 24; j++) {
      long sum = 0;
      for (int k = 0; k < 24; k++) sum += (long)a[i * 24 + k] * b[k * 24 + j];
      c[i * 24 + j] = sum;
    }
}

int main(void) {
  long trace = 0;
  fill();
  multiply();
  for (int i = 0; i < 24; i++) trace += c[i * 24 + i];
  putint(trace);
  for (int j = 0; j < 8; j++) {
    putchar(' ');
    putint(c[5 * 24 + j]);
  }
  putchar('\n');
  return 0;
}
