// A list is freed, cell by cell.
#include <stdlib.h>

struct node {
  int data;
  struct node *next;
};

void clear(struct node *x) {
  while (x) {
    struct node *t = x->next;
    free(x);
    x = t;
  }
}
