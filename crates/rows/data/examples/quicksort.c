/* Sorts 2,000 numbers of a generator in place, and looks that they are in order. */
#include <stdio.h>

int numbers[2000];
long seed = 20021202;

int next(void) {
  seed = (seed * 1103515245 + 12345) & 0x7fffffff;
  return seed >> 8;
}

void swap(int *x, int *y) {
  int kept = *x;
  *x = *y;
  *y = kept;
}

/* Numbers below the pivot come to the left; the place behind them is given. */
int part(int *a, int low, int high) {
  int pivot = a[low + (high - low) / 2];
  while (low <= high) {
    while (a[low] < pivot) low++;
    while (a[high] > pivot) high--;
    if (low <= high) swap(&a[low++], &a[high--]);
  }
  return low;
}

void sort(int *a, int low, int high) {
  while (low < high) {
    int middle = part(a, low, high);
    if (middle - low < high - middle) {
      sort(a, low, middle - 1);
      low = middle;
    } else {
      sort(a, middle, high);
      high = middle - 1;
    }
  }
}

int is_sorted(int *a, int count) {
  for (int i = 1; i < count; i++)
    if (a[i - 1] > a[i]) return 0;
  return 1;
}

void print(char *text) {
  while (*text) putchar(*text++);
}

int main(void) {
  for (int i = 0; i < 2000; i++) numbers[i] = next() % 100000;
  sort(numbers, 0, 1999);
  print(is_sorted(numbers, 2000) ? "sorted:" : "not sorted:");
  for (int i = 0; i < 2000; i += 250) {
    putchar(' ');
    putint(numbers[i]);
  }
  putchar('\n');
  return 0;
}
