/* Where a word stands in a text, by Knuth, Morris and Pratt: the text is read once, and no letter of it twice. */
#include <stdio.h>

char word[] = "abacab";
int back[8];

int length(char *text) {
  char *end = text;
  while (*end) end++;
  return end - text;
}

/* back[k]: of the first k letters, the longest end that is also a beginning */
void prepare(int count) {
  int k = 0;
  back[0] = -1;
  back[1] = 0;
  for (int i = 1; i < count; i++) {
    while (k >= 0 && word[i] != word[k]) k = back[k];
    back[i + 1] = ++k;
  }
}

int main(void) {
  int count = length(word), k = 0, at = 0, found = 0, c;
  prepare(count);
  while ((c = getchar()) != EOF) {
    while (k >= 0 && (k == count || c != word[k])) k = back[k];
    k++;
    at++;
    if (k == count) {
      if (found++) putchar(' ');
      putint(at - count);
    }
  }
  if (!found) putchar('-');
  putchar('\n');
  return found;
}
