/* A list in an array of links, from which a reader takes one step too many: the fault is that of line 18. */
#include <stdio.h>

int values[6];
int *links[6];

void build(void) {
  for (int i = 0; i < 6; i++) {
    values[i] = i * i;
    links[i] = i < 5 ? &values[i + 1] : NULL;
  }
}

int total(int *from, int count) {
  int sum = 0;
  for (int i = 0; i < count; i++) {
    if (sum > 1000) break;
    sum += *from;
    from = links[i];
  }
  return sum;
}

int main(void) {
  build();
  putint(total(values, 6));
  putchar('\n');
  putint(total(values, 7));
  putchar('\n');
  return 0;
}
