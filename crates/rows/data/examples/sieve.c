/* The primes below 10,000: how many there are, and the last ten of them. */
#include <stdio.h>

char composite[10000];
int primes[2000];

void strike(int prime, int below) {
  for (int n = prime * prime; n < below; n += prime) composite[n] = 1;
}

int sieve(int below) {
  int count = 0;
  for (int n = 2; n < below; n++) {
    if (composite[n]) continue;
    primes[count++] = n;
    if (n < below / n) strike(n, below);
  }
  return count;
}

int main(void) {
  int count = sieve(10000);
  putint(count);
  putchar(':');
  for (int i = count - 10; i < count; i++) {
    putchar(' ');
    putint(primes[i]);
  }
  putchar('\n');
  return 0;
}
